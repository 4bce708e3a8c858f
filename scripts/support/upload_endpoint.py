"""An endpoint that notes what comes of each request, however large, and how each connection ends. It
does what the target asks for: it reads slowly or nothing, answers early, or leaves."""
import re
import socket
import threading
import time
import zlib
from collections.abc import Callable, Mapping

from support.checks import comes
from support.clients import reset
from support.endpoints import AROUND_DATA, END_OF_HEAD, LONGEST, Endpoint, in_one_chunk
from support.endpoints import reset_at_once, up_to_the_end
from support.messages import response

LINE_END = b"\r\n"
# As the switch writes it: no extension.
SIZE_LINE = re.compile(rb"[0-9a-fA-F]+\r\n")
PIECE = 65536
# How a connection ended: its peer closed it, or reset it, or the endpoint itself left.
CLOSED, RESET, LEFT = "closed", "reset", "left"
# What the endpoint does at these targets, each with any query. At all others it answers a whole
# request with what came of it (`told`).
SLOW, SILENT, STALLS = b"/slow", b"/silent", b"/stalls"
EARLY, EARLY_UNREAD, ECHOES = b"/early", b"/early-unread", b"/echoes"
RESETS, ENDS, PART = b"/resets", b"/ends", b"/part"
# It answers a whole request with zeros, by length, in one chunk or up to the end of the connection. The body has as many bytes
# as the query says, with the lines of the chunk.
LENGTH, ONE_CHUNK, TO_THE_END = b"/by-length", b"/one-chunk", b"/to-the-end"
ENOUGH = 100_000  # bytes of a body that it reads before it leaves
PAUSE = 0.001  # seconds that it sleeps after each piece that it reads slowly
PAGE = b"you may not send this" * 100
EARLY_ANSWER = b"HTTP/1.1 401 Unauthorized\r\nContent-Length: %d\r\n\r\n%s" % (len(PAGE), PAGE)
IN_CHUNKS = b"HTTP/1.1 200 OK\r\nTransfer-Encoding: chunked\r\n\r\n"


class Source:
    """The bytes that come on a connection. `EOFError` where it ends before those that are awaited."""

    def __init__(self, connection: socket.socket) -> None:
        self.connection = connection
        self.held, self.place = b"", 0  # what came, and how much of it was taken

    def some(self, most: int) -> bytes:
        """At most so many bytes, as they come."""
        if self.place == len(self.held):
            self.held, self.place = self.more(), 0
        piece = self.held[self.place : self.place + most]
        self.place += len(piece)
        return piece

    def until(self, end: bytes) -> bytes:
        """The bytes up to this end, which is the last of them."""
        while (found := self.held.find(end, self.place)) < 0:
            self.held, self.place = self.held[self.place :] + self.more(), 0
        first, self.place = self.place, found + len(end)
        return self.held[first : self.place]

    def more(self) -> bytes:
        piece = self.connection.recv(PIECE)
        if not piece:
            raise EOFError
        return piece


class Upload:
    """What came of a request: its head, the bytes of its body without their framing, how many they
    are, and their checksum. `fault` is what the switch would not write, `end` how its connection
    ended, and `connection` the number of that."""

    def __init__(self, head: bytes, connection: int) -> None:
        self.head = head
        line, *fields = head.removesuffix(END_OF_HEAD).split(LINE_END)
        self.target = line.split(b" ", 2)[1]
        pairs = (field.partition(b":") for field in fields)
        self.fields = [(name.lower(), value.strip()) for name, _, value in pairs]
        self.connection = connection
        self.count = self.checksum = 0
        self.is_whole = False
        self.fault = self.end = ""

    def value(self, name: bytes) -> bytes | None:
        return next((value for field, value in self.fields if field == name.lower()), None)

    @property
    def number(self) -> int:
        """The number that is the query of its target."""
        return int(self.target.partition(b"?")[2])

    @property
    def is_in_chunks(self) -> bool:
        return self.value(b"Transfer-Encoding") == b"chunked"

    def has_ended(self) -> bool:
        """Whether its connection ended, at a time that comes soon."""
        return comes(lambda: self.end != "")

    def has(self, count: int) -> bool:
        """Whether so many bytes of the body came, at a time that comes soon."""
        return comes(lambda: self.count >= count)

    def take(self, source: Source, most: int) -> bytes:
        piece = source.some(most)
        self.checksum = zlib.crc32(piece, self.checksum)
        self.count += len(piece)
        return piece

    def read(
        self, source: Source, each: Callable[[bytes], object] = len, most: int | None = None
    ) -> None:
        """Reads the body to its end, or `most` bytes of it, and hands each piece on."""
        if self.is_in_chunks:
            self.read_chunks(source, each, most)
        else:
            length = int(self.value(b"Content-Length") or b"0")
            self.read_data(source, length if most is None else min(most, length), each)
        self.is_whole = most is None

    def read_data(self, source: Source, count: int, each: Callable[[bytes], object]) -> None:
        while count > 0:
            piece = self.take(source, count)
            count -= len(piece)
            each(piece)

    def read_chunks(
        self, source: Source, each: Callable[[bytes], object], most: int | None
    ) -> None:
        while most is None or self.count < most:
            size = self.size_of_chunk(source)
            self.read_data(source, size, each)
            # behind the last chunk, this is the end of the body: there are no trailers
            self.expect(source.until(LINE_END), re.compile(LINE_END))
            if size == 0:
                return

    def size_of_chunk(self, source: Source) -> int:
        line = source.until(LINE_END)
        self.expect(line, SIZE_LINE)
        return int(line, 16)

    def expect(self, line: bytes, pattern: re.Pattern[bytes]) -> None:
        if not pattern.fullmatch(line):
            self.fault = f"{line[:100]!r}"
            raise ValueError(self.fault)


def told(target: bytes, body: bytes) -> bytes:
    """What is answered once this body came to a target."""
    return text_of(target, len(body), zlib.crc32(body))


def text_of(target: bytes, count: int, checksum: int) -> bytes:
    return b"%s: %d bytes %08x" % (target, count, checksum)


class UploadEndpoint(Endpoint):
    """Such an endpoint. What waits goes on once `may_go` is set."""

    def __init__(self, port: int = 0) -> None:
        self.uploads: list[Upload] = []
        self.connections = self.open = 0
        self.may_go = threading.Event()
        # `serve` answers, and calls no other function
        super().__init__(reset_at_once, port)

    def serve(self, connection: socket.socket) -> None:
        with self.lock:
            self.connections += 1
            self.open += 1
            number = self.connections
        try:
            with connection:
                connection.settimeout(LONGEST)
                self.serve_each(Source(connection), number)
        finally:
            with self.lock:
                self.open -= 1

    def serve_each(self, source: Source, number: int) -> None:
        """Serves requests until the connection ends, and notes how it did."""
        mine: list[Upload] = []
        end = LEFT
        try:
            while True:
                upload = Upload(source.until(END_OF_HEAD), number)
                mine.append(upload)
                with self.lock:
                    self.uploads.append(upload)
                act = ACTS.get(upload.target.partition(b"?")[0], UploadEndpoint.answer_whole)
                act(self, upload, source)
        except EOFError:
            end = CLOSED
        except ConnectionError:
            end = RESET
        except (OSError, ValueError):
            pass  # the endpoint has closed its socket, or reads on no further
        for upload in mine:
            upload.end = end

    def stop(self) -> None:
        self.may_go.set()
        super().stop()

    def wait(self) -> None:
        self.may_go.wait(LONGEST)

    def at(self, target: bytes) -> Upload:
        """The first request for a target, once it is there."""
        if not comes(lambda: self.all_at(target)):
            raise LookupError(f"no request for {target!r} has come")
        return self.all_at(target)[0]

    def all_at(self, target: bytes) -> list[Upload]:
        with self.lock:
            return [upload for upload in self.uploads if upload.target == target]

    def answer_whole(self, upload: Upload, source: Source) -> None:
        upload.read(source)
        text = text_of(upload.target, upload.count, upload.checksum)
        source.connection.sendall(response(text))

    def answer_slowly(self, upload: Upload, source: Source) -> None:
        upload.read(source, lambda _: time.sleep(PAUSE))
        text = text_of(upload.target, upload.count, upload.checksum)
        source.connection.sendall(response(text))

    def answer_by_length(self, upload: Upload, source: Source) -> None:
        upload.read(source)
        source.connection.sendall(response(bytes(upload.number)))

    def answer_in_one_chunk(self, upload: Upload, source: Source) -> None:
        upload.read(source)
        source.connection.sendall(in_one_chunk(bytes(upload.number - AROUND_DATA)))

    def answer_to_the_end(self, upload: Upload, source: Source) -> None:
        upload.read(source)
        source.connection.sendall(up_to_the_end(bytes(upload.number)))
        source.connection.shutdown(socket.SHUT_WR)
        read_on(source)

    def be_silent(self, upload: Upload, source: Source) -> None:
        """Reads a request and whatever follows it, and answers nothing."""
        upload.read(source)
        read_on(source)

    def stall(self, _: Upload, source: Source) -> None:
        """Reads nothing."""
        self.wait()
        read_on(source)

    def answer_early(self, _: Upload, source: Source) -> None:
        """Answers before the body, ends its side, and drops the body."""
        source.connection.sendall(EARLY_ANSWER)
        source.connection.shutdown(socket.SHUT_WR)
        read_on(source)

    def answer_unread(self, _: Upload, source: Source) -> None:
        """Answers before the body, reads nothing of it, and resets the connection then."""
        source.connection.sendall(EARLY_ANSWER)
        self.wait()
        reset(source.connection)

    def echo(self, upload: Upload, source: Source) -> None:
        """Sends back each piece of the body as it comes, as a chunk."""
        connection = source.connection
        connection.sendall(IN_CHUNKS)
        upload.read(source, lambda piece: connection.sendall(b"%x\r\n%s\r\n" % (len(piece), piece)))
        connection.sendall(b"0\r\n\r\n")

    def reset_halfway(self, upload: Upload, source: Source) -> None:
        upload.read(source, most=ENOUGH)
        reset(source.connection)

    def end_halfway(self, upload: Upload, source: Source) -> None:
        """Ends its side without a byte of an answer."""
        upload.read(source, most=ENOUGH)
        source.connection.shutdown(socket.SHUT_WR)
        read_on(source)

    def answer_in_part(self, upload: Upload, source: Source) -> None:
        """Sends the half of an answer, waits, and resets the connection."""
        upload.read(source, most=ENOUGH)
        source.connection.sendall(EARLY_ANSWER[: -len(PAGE) // 2])
        self.wait()
        reset(source.connection)


def read_on(source: Source) -> None:
    """Drops what comes until the connection ends."""
    while True:
        source.some(PIECE)


ACTS: Mapping[bytes, Callable[[UploadEndpoint, Upload, Source], None]] = {
    SLOW: UploadEndpoint.answer_slowly,
    SILENT: UploadEndpoint.be_silent,
    STALLS: UploadEndpoint.stall,
    EARLY: UploadEndpoint.answer_early,
    EARLY_UNREAD: UploadEndpoint.answer_unread,
    ECHOES: UploadEndpoint.echo,
    RESETS: UploadEndpoint.reset_halfway,
    ENDS: UploadEndpoint.end_halfway,
    PART: UploadEndpoint.answer_in_part,
    LENGTH: UploadEndpoint.answer_by_length,
    ONE_CHUNK: UploadEndpoint.answer_in_one_chunk,
    TO_THE_END: UploadEndpoint.answer_to_the_end,
}
