//! A replay of the lines `open`, `tick`, `available`, `enter` and `leave`, as it is written where nothing is proved.
//! `bench/replay.sh` sets the time of `bg_switch replay` beside its time. It answers these lines with the same bytes,
//! but it takes the strategy before `---` as read: no preview service, and as many replicas as `open` names ports.

use std::hint::black_box;
use std::io::{self, BufRead, BufWriter, Write};

const SEATS: usize = 4;
const ENTRIES: usize = 1_000_000;
const LAST_MOMENT: u64 = 1 << 53;

#[derive(Clone, Copy)]
enum Service {
    Active,
    Preview,
}

enum Command {
    Open { ports: Vec<u16> },
    Tick { moment: u64 },
    Available { revision: u64, endpoints: u32 },
    Enter { seat: usize, service: Service },
    Leave { seat: usize },
}

/// What is kept of each event. Nothing here asks for it again.
#[allow(dead_code)]
enum Entry {
    Tick { moment: u64 },
    Available { revision: u64, endpoints: u32 },
    Enter { seat: usize, number: u64, revision: u64, port: u16 },
    Leave { seat: usize, number: u64, revision: u64 },
}

enum Reply {
    Done,
    Entered { number: u64, port: u16 },
    Left { number: u64 },
}

#[derive(Debug)]
enum Refusal {
    NotOpen,
    AlreadyOpen,
    MomentTooLarge,
    MomentBack,
    NoSuchRevision,
    MoreThanDesired,
    NoSuchSeat,
    SeatBusy,
    SeatIdle,
    NoPreview,
    NoEndpoints,
    HistoryFull,
}

/// One revision, numbered 1, with its open requests in the order in which they entered.
struct Book {
    ports: Vec<u16>,
    available: u32,
    moment: u64,
    given: u64,
    seats: [Option<u64>; SEATS],
    open: Vec<u64>,
    history: Vec<Entry>,
}

impl Book {
    fn new(ports: Vec<u16>) -> Book {
        Book {
            ports,
            available: 0,
            moment: 0,
            given: 0,
            seats: [None; SEATS],
            open: Vec::new(),
            history: Vec::new(),
        }
    }

    fn call(&mut self, command: Command) -> Result<Reply, Refusal> {
        match command {
            Command::Open { .. } => Err(Refusal::AlreadyOpen),
            Command::Tick { moment } => self.tick(moment),
            Command::Available { revision, endpoints } => self.report_available(revision, endpoints),
            Command::Enter { seat, service } => self.enter(seat, service),
            Command::Leave { seat } => self.leave(seat),
        }
    }

    /// Whether the history has room for so many entries more, beside three for each open request.
    fn has_room(&self, entries: usize, open: usize) -> bool {
        self.history.len() + entries + 3 * open <= ENTRIES
    }

    fn tick(&mut self, moment: u64) -> Result<Reply, Refusal> {
        if moment > LAST_MOMENT {
            return Err(Refusal::MomentTooLarge);
        }
        if moment < self.moment {
            return Err(Refusal::MomentBack);
        }
        if !self.has_room(141, self.open.len()) {
            return Err(Refusal::HistoryFull);
        }
        self.moment = moment;
        self.history.push(Entry::Tick { moment });
        Ok(Reply::Done)
    }

    fn report_available(&mut self, revision: u64, endpoints: u32) -> Result<Reply, Refusal> {
        if revision != 1 {
            return Err(Refusal::NoSuchRevision);
        }
        if endpoints as usize > self.ports.len() {
            return Err(Refusal::MoreThanDesired);
        }
        if !self.has_room(141, self.open.len()) {
            return Err(Refusal::HistoryFull);
        }
        self.available = endpoints;
        self.history.push(Entry::Available { revision, endpoints });
        Ok(Reply::Done)
    }

    fn enter(&mut self, seat: usize, service: Service) -> Result<Reply, Refusal> {
        if self.seats.get(seat).ok_or(Refusal::NoSuchSeat)?.is_some() {
            return Err(Refusal::SeatBusy);
        }
        if let Service::Preview = service {
            return Err(Refusal::NoPreview);
        }
        if self.available == 0 {
            return Err(Refusal::NoEndpoints);
        }
        if !self.has_room(1, self.open.len() + 1) {
            return Err(Refusal::HistoryFull);
        }
        self.given += 1;
        let number = self.given;
        let port = self.ports[(number % u64::from(self.available)) as usize];
        self.seats[seat] = Some(number);
        self.open.push(number);
        self.history.push(Entry::Enter { seat, number, revision: 1, port });
        Ok(Reply::Entered { number, port })
    }

    fn leave(&mut self, seat: usize) -> Result<Reply, Refusal> {
        let held = self.seats.get_mut(seat).ok_or(Refusal::NoSuchSeat)?;
        let number = held.take().ok_or(Refusal::SeatIdle)?;
        self.open.retain(|&open| open != number);
        self.history.push(Entry::Leave { seat, number, revision: 1 });
        Ok(Reply::Left { number })
    }
}

fn parse(line: &[u8]) -> Option<Command> {
    let mut words = std::str::from_utf8(line).ok()?.split_ascii_whitespace();
    let command = match words.next()? {
        "open" => {
            words.next()?;
            let ports: Vec<u16> = words.by_ref().map(|word| word.parse().ok()).collect::<Option<_>>()?;
            (!ports.is_empty()).then_some(Command::Open { ports })?
        }
        "tick" => Command::Tick { moment: words.next()?.parse().ok()? },
        "available" => Command::Available {
            revision: words.next()?.parse().ok()?,
            endpoints: words.next()?.parse().ok()?,
        },
        "enter" => Command::Enter {
            seat: words.next()?.parse().ok()?,
            service: match words.next()? {
                "active" => Service::Active,
                "preview" => Service::Preview,
                _ => return None,
            },
        },
        "leave" => Command::Leave { seat: words.next()?.parse().ok()? },
        _ => return None,
    };
    words.next().is_none().then_some(command)
}

fn carry_out(book: &mut Option<Book>, command: Command) -> Result<Reply, Refusal> {
    match (book.as_mut(), command) {
        (Some(book), command) => book.call(command),
        (None, Command::Open { ports }) => {
            *book = Some(Book::new(ports));
            Ok(Reply::Done)
        }
        (None, _) => Err(Refusal::NotOpen),
    }
}

fn write_reply(output: &mut impl Write, reply: Result<Reply, Refusal>) -> io::Result<()> {
    match reply {
        Ok(Reply::Done) => writeln!(output, "ok 0"),
        Ok(Reply::Entered { number, port }) => writeln!(output, "entered {number} revision 1 port {port}"),
        Ok(Reply::Left { number }) => writeln!(output, "left {number} revision 1"),
        Err(refusal) => writeln!(output, "refused {refusal:?}"),
    }
}

/// Reads the next line without its end, and answers whether there was one.
fn next_line(input: &mut impl BufRead, line: &mut Vec<u8>) -> io::Result<bool> {
    line.clear();
    let read = input.read_until(b'\n', line)?;
    if line.ends_with(b"\n") {
        line.pop();
        if line.ends_with(b"\r") {
            line.pop();
        }
    }
    Ok(read > 0)
}

fn main() -> io::Result<()> {
    let mut input = io::stdin().lock();
    let mut output = BufWriter::new(io::stdout().lock());
    let mut line = Vec::new();
    while next_line(&mut input, &mut line)? && line != b"---" {}
    let mut book = None;
    while next_line(&mut input, &mut line)? {
        match parse(&line) {
            Some(command) => write_reply(&mut output, carry_out(&mut book, command))?,
            None => writeln!(output, "fault UnknownWord")?,
        }
    }
    black_box(&book);
    output.flush()
}
