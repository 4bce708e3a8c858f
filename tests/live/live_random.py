"""`bg_switch serve` on loopback: ten thousand exchanges at random while revisions come and go. What
entered is what is told at the end, and neither a descriptor nor memory is lost."""
import concurrent.futures
import random
import time
from collections.abc import Sequence
from typing import NamedTuple

from support import checks, clients
from support.checks import check, comes
from support.endpoints import BROKEN, Endpoint, by_target
from support.messages import (
    BAD_GATEWAY,
    BAD_REQUEST,
    BY_HAND,
    HEAD_TOO_LARGE,
    LARGEST_BODY,
    NOT_IMPLEMENTED,
    TOO_LARGE,
    UNAVAILABLE,
    answer,
    head_of,
    request,
)
from support.ports import connections_at
from support.processes import descriptors, resident_memory, sockets
from support.rule.book import RuleBook
from support.rule.entries import Service
from support.rule.revisions import available, template
from support.rule.selections import selection
from support.rule.strategy import strategy_of
from support.switch import Switch

SEED = 30
CLIENTS = 8
# How many exchanges make the first mark and the second, and how many come in each step.
FIRST_MARK, EACH_STEP = 104, 1000
# How many connections of each worker there are: those of ten thousand exchanges, and of the last
# clients of each time that they come.
COUNT = 1270
# How much more memory, in KiB, the program may have after ten thousand exchanges than after a
# hundred, when not each worker has had its largest message, and than after a thousand.
MOST_GROWTH_FROM_HUNDRED = 2048
MOST_GROWTH_FROM_THOUSAND = 512
# Requests that are refused, and what they are answered.
REFUSED = [
    (b"GET / HTTP/1.1\r\n\r\n", BAD_REQUEST),
    (b"GET  / HTTP/1.1\r\nHost: x\r\n\r\n", BAD_REQUEST),
    (b"\0\1\2\3\r\n\r\n", BAD_REQUEST),
    (b"POST / HTTP/1.1\r\nHost: x\r\nTransfer-Encoding: chunked\r\n\r\nx\r\n", BAD_REQUEST),
    (head_of(LARGEST_BODY + 1), TOO_LARGE),
    (b"GET / HTTP/1.1\r\n" + b"A: b\r\n" * 65 + b"\r\n", HEAD_TOO_LARGE),
    (request(method=b"CONNECT"), NOT_IMPLEMENTED),
]


class ClientRequest(NamedTuple):
    """What a client sends at a port, whether it resets the connection then and hears nothing, what
    it is answered else, and whether its request enters. One whose client resets the connection may
    be found gone before it enters."""

    port: int
    text: bytes
    resets: bool
    answer: bytes
    enters: bool

    def is_as_expected(self) -> bool:
        if not self.resets:
            return clients.asked(self.port, self.text) == self.answer
        client = clients.connect(self.port)
        client.sendall(self.text)
        clients.reset(client)
        return True

    def enters_surely(self) -> bool:
        return self.enters and not self.resets


class Step(NamedTuple):
    """Lines with their replies, and which endpoints, by their names, the two services have after
    them, by the rule."""

    lines: dict[str, str]
    active: bytes | None
    preview: bytes | None


class Footprint(NamedTuple):
    """How many descriptors the program has when no client is there any more, and its memory in
    KiB."""

    descriptors: int
    memory: int


def random_request(rng: random.Random, name: bytes) -> tuple[bytes, bytes]:
    """A request, and what it is answered by the endpoint of this name."""
    body = rng.randbytes(rng.choice((1, 100, 3000)))
    return rng.choice(
        (
            (request(), answer(name)),
            (request(method=b"HEAD"), answer(name)[: -len(name)]),
            (request(method=b"POST", body=body), answer(name + body)),
            (request(method=b"POST", body=body, chunked=True), answer(name + body)),
            (request(rng.choice(list(BROKEN))), BAD_GATEWAY),
        )
    )


def random_client_request(rng: random.Random, port: int, name: bytes | None) -> ClientRequest:
    """A request at a port whose endpoint has this name; None if there is no endpoint."""
    text, expected = random_request(rng, name or b"none")
    kind = rng.randrange(10)
    if kind == 0:
        text, expected = rng.choice(REFUSED)
        return ClientRequest(port, text, False, expected, False)
    if kind <= 2:
        return ClientRequest(port, text[: rng.randrange(len(text))], kind == 1, b"", False)
    if name is None:
        return ClientRequest(port, text, False, UNAVAILABLE, False)
    return ClientRequest(port, text, kind == 3, expected, True)


class RandomRun:
    """A switch for seven requests at a time and one, its operator and three endpoints; how many
    requests have entered, and how many have surely and at most."""

    def __init__(self) -> None:
        self.rng = random.Random(SEED)
        self.switch = Switch(BY_HAND, workers=7, count=COUNT)
        self.operator = self.switch.operator()
        self.endpoints = [Endpoint(by_target(name)) for name in (b"one", b"two", b"three")]
        self.entered = self.least = self.most = 0
        # of its ports and of the operator
        self.operator.check("tick 0", "refused NotOpen")
        self.sockets = sockets(self.switch.process.pid)

    def served(self) -> int:
        return sum(endpoint.served for endpoint in self.endpoints)

    def has_settled(self) -> bool:
        """Whether each request that entered has left, and no socket of a client or an endpoint is
        open."""
        is_quiet = sockets(self.switch.process.pid) == self.sockets
        return is_quiet and not any(self.operator.open_requests())

    def settled_report(self) -> str:
        """The report once it has settled; requests whose clients are gone may still be under
        way."""
        check("all that entered have left", comes(self.has_settled), True)
        return self.operator.report()

    def send(self, step: Step) -> None:
        for line, expected in step.lines.items():
            self.operator.check(line, expected)

    def send_requests(self, count: int, step: Step) -> None:
        """`count` requests at once with the active and the preview port; each eighth is one with
        the preview port. Then one more with each port: it is accepted after all that came before.
        """
        switch = self.switch
        active, preview = (switch.active, step.active), (switch.preview, step.preview)
        ports = [preview if place % 8 == 0 else active for place in range(count)]
        self.rng.shuffle(ports)
        requests = [random_client_request(self.rng, *port) for port in ports]
        for port, _ in ports:
            switch.take(port)
        with concurrent.futures.ThreadPoolExecutor(CLIENTS) as pool:
            results = pool.map(ClientRequest.is_as_expected, requests)
            check(
                "requests at random",
                [one for one, as_expected in zip(requests, results) if not as_expected][:3],
                [],
            )
        self.least += sum(one.enters_surely() for one in requests)
        self.most += sum(one.enters for one in requests)
        for port, name in (active, preview):
            self.send_last(port, name)
        self.settled_report()

    def send_last(self, port: int, name: bytes | None) -> None:
        self.switch.take(port)
        expected = UNAVAILABLE if name is None else answer(name)
        check("a request after those at random", clients.asked(port, request()), expected)
        self.least += name is not None
        self.most += name is not None

    def compact(self) -> None:
        """A check that the entries of all requests that have entered since the last time, and no
        others, are dropped from the history: two for each."""
        word, dropped = self.operator.answer_to("compact").split()
        check("compact", (word, int(dropped) % 2), ("compacted", 0))
        self.entered += int(dropped) // 2
        check(
            "those that surely enter have entered, and those alone that may",
            self.least <= self.entered <= self.most,
            True,
        )
        check(
            "those that surely enter have reached an endpoint, and those alone that have entered",
            self.least <= self.served() <= self.entered,
            True,
        )

    def has_no_client(self) -> bool:
        return connections_at(self.switch.active) + connections_at(self.switch.preview) == 0

    def footprint(self) -> Footprint:
        process = self.switch.process.pid
        check("all connections of clients have ended", comes(self.has_no_client), True)
        counts = []
        for _ in range(20):
            counts.append(len(descriptors(process)))
            time.sleep(0.02)
        return Footprint(min(counts), resident_memory(process))


def endpoint_of(book: RuleBook, service: Service) -> bytes | None:
    """The name of the endpoint to which the requests of a service go."""
    assert book.history is not None
    revision = selection(book.history, service)
    if revision is None or not available(book.history, revision):
        return None
    return template(book.history, revision).name.encode()


def step_of(book: RuleBook, lines: Sequence[str]) -> Step:
    """The step that these lines make."""
    replies = {line: book.reply(line)[0] for line in lines}
    return Step(replies, endpoint_of(book, "active"), endpoint_of(book, "preview"))


def steps_of(book: RuleBook, one: int, two: int, three: int) -> Sequence[Step]:
    """The steps of a rollout whose revisions have an endpoint each at these ports."""
    each_step = (
        (f"open one {one}", "available 1 1"),
        (f"deploy two {two}", "available 2 1"),
        ("promote",),
        ("tick 30",),
        (f"deploy three {three}", "available 3 1"),
        ("abort",),
        ("available 2 0",),
        ("available 2 1",),
        ("retry",),
        ("promote",),
    )
    return [step_of(book, lines) for lines in each_step]


def first_marks(run: RandomRun, step: Step) -> tuple[Footprint, Footprint]:
    """The first step; gives what the program has after the first hundred exchanges, and after the
    first thousand."""
    run.send(step)
    run.send_requests(FIRST_MARK, step)
    hundred = run.footprint()
    run.send_requests(EACH_STEP - FIRST_MARK, step)
    thousand = run.footprint()
    run.compact()
    return hundred, thousand


def check_footprint(end: Footprint, hundred: Footprint, thousand: Footprint) -> None:
    check("descriptors at the end", end.descriptors, hundred.descriptors)
    for since, before, most in (
        ("hundred", hundred, MOST_GROWTH_FROM_HUNDRED),
        ("thousand", thousand, MOST_GROWTH_FROM_THOUSAND),
    ):
        grown = end.memory - before.memory
        check(
            f"KiB of memory since the first {since} above what is allowed", max(grown - most, 0), 0
        )


def ten_thousand_requests() -> None:
    """Of the history each thousand is dropped."""
    run, book = RandomRun(), RuleBook(strategy_of(BY_HAND))
    first, *others = steps_of(book, *(endpoint.port for endpoint in run.endpoints))
    hundred, thousand = first_marks(run, first)
    for step in others:
        run.send(step)
        run.send_requests(EACH_STEP, step)
        run.compact()
    check_footprint(run.footprint(), hundred, thousand)
    told = run.settled_report()
    run.operator.send_quit()
    check(
        "the end of ten thousand exchanges",
        run.switch.end(),
        (f"{told}calls {2 * run.entered}\n", 0),
    )
    check("their last report", told.splitlines(), book.reply("report"))
    run.operator.close()


if __name__ == "__main__":
    checks.run("live_random", [ten_thousand_requests])
