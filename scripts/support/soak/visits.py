"""The clients of a soak: each visit is a connection with one request or several, by a seed."""
import contextlib
import random
import time
from collections.abc import Callable, Iterator, Sequence
from typing import NamedTuple

from support.clients import reset
from support.endpoints import END_OF_HEAD
from support.kept import KeptClient, last
from support.messages import request
from support.soak.contents import BIG, EARLY, PLAIN, WEIGHTS, WHOLE, content_of, target_of

MOST_KEPT = 20  # requests of a kept connection
SMALL = (0, 1, 100, 3_000)  # bytes of a body
LARGE_BODY, SHARE_LARGE = 150_000, 0.01
METHODS = (b"GET", b"GET", b"GET", b"POST", b"POST", b"PUT", b"HEAD", b"DELETE")
SLOW = (0.0, 0.02)  # seconds between two pieces of a slow client
IDLE = (-0.01, 0.02)  # by how many seconds an idle client asks again beside its timeout
FAULT = b"BAD\r\n\r\n"
OWN_STATUSES = (502, 503)  # the answers of the switch itself, without a body


class Asked(NamedTuple):
    """A request: its place on its connection, from 1 on, what is sent, and what it is given."""

    place: int
    method: bytes
    target: bytes
    text: bytes
    content: bytes
    may_be_whole: bool


class Got(NamedTuple):
    """A request that was sent at least in part: the status and the bytes of its answer, or None and
    0."""

    target: bytes
    place: int
    status: int | None = None
    size: int = 0


class Visited(NamedTuple):
    """What a visit came to: its requests, how many parts and faults came behind them, whose lines
    in the log have no target, whether its connection ended without an answer that it had to get, and
    what was wrong."""

    got: Sequence[Got]
    faults: int = 0
    parts: int = 0
    was_cut: bool = False
    wrong: Sequence[str] = ()


class Visit(NamedTuple):
    """A connection that is to be made: where, by which kind of client, the number of its first
    request and how many it has, and for how many seconds the switch keeps an idle client."""

    port: int
    kind: str
    first: int
    requests: int
    seed: int
    idle: float


class WrongAnswerError(Exception):
    """An answer that no request may get."""


def requests_of(visit: Visit, chance: random.Random) -> Iterator[Asked]:
    kinds, weights = list(WEIGHTS), list(WEIGHTS.values())
    sends_ahead = visit.kind not in ("single", "in_turn", "idles")
    for place in range(1, visit.requests + 1):
        kind = chance.choices(kinds, weights)[0]
        # who sends ahead reads nothing meanwhile, so its messages are small
        kind = PLAIN if sends_ahead and kind == BIG else kind
        method = chance.choice(METHODS)
        if kind != PLAIN and method == b"HEAD":
            method = b"GET"
        target, body = target_of(kind, visit.first + place), None
        is_large = not sends_ahead and (kind == EARLY or chance.random() < SHARE_LARGE)
        if kind == EARLY:
            method = b"POST"
        if method in (b"POST", b"PUT"):
            body = chance.randbytes(LARGE_BODY if is_large else chance.choice(SMALL))
        # an empty chunk would be the last one
        text = request(target, method, body, chunked=bool(body) and chance.random() < 0.3)
        content = content_of(method, target, b"" if kind == EARLY else body or b"")
        yield Asked(place, method, target, text, content, kind in WHOLE)


class Client:
    """A client of a visit, which judges each answer."""

    def __init__(self, visit: Visit, client: KeptClient) -> None:
        self.visit = visit
        self.client = client
        self.got: list[Got] = []
        self.is_over = False  # whether an answer said that it is the last one, or none came
        self.was_cut = False  # whether none came

    def take(self, asked: Asked) -> bool:
        """Takes the answer to a request. Gives whether one came and the connection goes on."""
        is_head = asked.method == b"HEAD"
        answer = b""
        with contextlib.suppress(ConnectionError):
            answer = self.client.answer(is_head)
        if not answer:
            self.got.append(Got(asked.target, asked.place))
            self.is_over = self.was_cut = True
            return False
        head, end, body = answer.partition(END_OF_HEAD)
        if not end or not head.startswith(b"HTTP/1.1 "):
            raise WrongAnswerError(f"{asked.target!r} got {answer[:100]!r}")
        status = int(head[9:12])
        judge(asked, status, head, body)
        self.got.append(Got(asked.target, asked.place, status, len(answer)))
        self.is_over = b"\r\nConnection: close" in head
        return not self.is_over

    def check_end(self) -> None:
        """The connection ends, and nothing comes any more."""
        if rest := self.client.rest():
            raise WrongAnswerError(f"{rest[:100]!r} behind the last answer, to {self.got[-1:]}")

    def leave(self, asked: Sequence[Asked]) -> None:
        """Notes requests that were sent and not answered."""
        self.got += [Got(one.target, one.place) for one in asked]


def judge(asked: Asked, status: int, head: bytes, body: bytes) -> None:
    """Raises `WrongAnswerError` if this is no answer to this request."""
    if status in OWN_STATUSES and not body:
        return
    length = b"\r\nContent-Length: %d" % len(asked.content)
    content = b"" if asked.method == b"HEAD" else asked.content
    if status != 200 or not asked.may_be_whole or body != content or length not in head:
        raise WrongAnswerError(f"{asked.method!r} {asked.target!r} got {head!r} and {body[:100]!r}")


def single(client: Client, asked: list[Asked], _: random.Random) -> None:
    """One request, which says that it is the last one."""
    client.client.send(last(asked[0].text))
    if client.take(asked[0]):
        raise WrongAnswerError(
            f"the answer to {asked[0].target!r} does not say that it is the last one"
        )
    client.check_end()


def single_reset(client: Client, asked: list[Asked], chance: random.Random) -> None:
    """One request, whose client goes after a while."""
    client.client.send(last(asked[0].text))
    time.sleep(chance.uniform(*SLOW))
    client.leave(asked)
    client.client.input.close()
    reset(client.client.connection)


def in_turn(client: Client, asked: list[Asked], _: random.Random) -> None:
    """Each request after the answer before it."""
    for one in asked:
        client.client.send(one.text)
        if not client.take(one):
            client.check_end()
            return


def ahead(client: Client, asked: list[Asked], _: random.Random) -> None:
    """All requests at once."""
    client.client.send(b"".join(one.text for one in asked))
    take_all(client, asked)


def take_all(client: Client, asked: Sequence[Asked]) -> None:
    for place, one in enumerate(asked, 1):
        if not client.take(one):
            client.leave(asked[place:])
            client.check_end()
            return


def half_closed(client: Client, asked: list[Asked], _: random.Random) -> None:
    """All at once, and the end of the input behind them."""
    client.client.send(b"".join(one.text for one in asked))
    client.client.end()
    take_all(client, asked)
    client.check_end()


def slow(client: Client, asked: list[Asked], chance: random.Random) -> None:
    """All at once, in pieces."""
    whole = b"".join(one.text for one in asked)
    at = 0
    # the switch may close the connection meanwhile, after an answer that says so
    with contextlib.suppress(ConnectionError):
        while at < len(whole):
            length = chance.choice((1, 7, 100, 2000))
            client.client.send(whole[at : at + length])
            at += length
            if chance.random() < 0.2:
                time.sleep(chance.uniform(*SLOW))
    take_all(client, asked)


def idles(client: Client, asked: list[Asked], chance: random.Random) -> None:
    """Two requests, the second one just as the switch closes the idle connection."""
    client.client.send(asked[0].text)
    if client.take(asked[0]):
        time.sleep(client.visit.idle + chance.uniform(*IDLE))
        client.client.send(asked[1].text)
        client.take(asked[1])
    if client.is_over:
        client.check_end()


def resets(client: Client, asked: list[Asked], chance: random.Random) -> None:
    """All at once; its client goes after some of the answers."""
    client.client.send(b"".join(one.text for one in asked))
    taken = chance.randrange(len(asked))
    for place, one in enumerate(asked[:taken], 1):
        if not client.take(one):
            client.leave(asked[place:])
            return
    client.leave(asked[taken:])
    client.client.input.close()
    reset(client.client.connection)


def part(client: Client, asked: list[Asked], chance: random.Random) -> None:
    """Each after the other, and then a part of one behind them."""
    *whole, cut = asked
    for one in whole:
        client.client.send(one.text)
        if not client.take(one):
            return
    client.client.send(cut.text[: chance.randrange(1, 20)])


def fault(client: Client, asked: list[Asked], _: random.Random) -> None:
    """All at once, and a fault behind them."""
    client.client.send(b"".join(one.text for one in asked) + FAULT)
    take_all(client, asked)


# What each kind of client does, and whether its connection is kept.
KINDS: dict[str, tuple[Callable[[Client, list[Asked], random.Random], None], bool]] = {
    "single": (single, False),
    "single_reset": (single_reset, False),
    "in_turn": (in_turn, True),
    "ahead": (ahead, True),
    "half_closed": (half_closed, True),
    "slow": (slow, True),
    "idles": (idles, True),
    "resets": (resets, True),
    "part": (part, True),
    "fault": (fault, True),
}
KEPT = [kind for kind, (_, is_kept) in KINDS.items() if is_kept]
# Of these a client may be cut: it asks as the switch closes its connection, or goes itself.
IMPOLITE = ("idles", "resets", "single_reset", "part")
KEPT_WEIGHTS = {"in_turn": 8, "ahead": 4, "half_closed": 2, "slow": 1, "idles": 1}


def plan(requests: int, ports: Sequence[int], seed: int, idle: float) -> list[Visit]:
    """Visits with so many requests, half of them on kept connections."""
    chance = random.Random(seed)
    visits, total, kept = list[Visit](), 0, 0
    weights = [KEPT_WEIGHTS.get(kind, 1) for kind in KEPT]
    while total < requests:
        if 2 * kept <= total:
            kind = chance.choices(KEPT, weights)[0]
            count = 2 if kind == "idles" else chance.randint(2, MOST_KEPT)
            kept += count
        else:
            kind, count = ("single_reset" if chance.random() < 0.05 else "single"), 1
        port = ports[chance.random() < 0.1]
        visits.append(Visit(port, kind, total, count, chance.randrange(1 << 30), idle))
        total += count
    return visits


def visited(visit: Visit) -> Visited:
    """Makes a visit. Each wait that takes too long is a fault."""
    chance = random.Random(visit.seed)
    asked = list(requests_of(visit, chance))
    faults, wrong, was_cut = 0, [], False
    with KeptClient(visit.port) as kept:
        client = Client(visit, kept)
        try:
            KINDS[visit.kind][0](client, asked, chance)
            if visit.kind == "fault" and not client.is_over:
                answer = kept.rest()
                faults = int(answer.startswith(b"HTTP/1.1 400 "))
                wrong += [] if faults else [f"a fault got {answer[:100]!r}"]
        except WrongAnswerError as error:
            wrong.append(f"{visit.kind}: {error}")
        except TimeoutError:
            wrong.append(f"{visit.kind}: it hangs after {len(client.got)} of {len(asked)} requests")
        except ConnectionError:
            # the switch has closed the connection while the client sent
            was_cut = True
        named = {one.target for one in client.got}
        client.leave([one for one in asked if one.target not in named])
        was_cut = (was_cut or client.was_cut) and visit.kind not in IMPOLITE
    return Visited(client.got, faults, int(visit.kind == "part"), was_cut, wrong)
