"""What the requests of a soak ask for, and what each is answered by an endpoint."""
import zlib
from typing import NamedTuple

# By the first part of a target: what an endpoint does that gives the whole content. It keeps the
# connection, or ends it in one of the ways that there are.
PLAIN, LATE, BIG, CHUNKS, EARLY = b"plain", b"late", b"big", b"chunks", b"early"
TO_THE_END, SAYS_CLOSE, VERSION_0, CLOSES = b"to-the-end", b"says-close", b"version-0", b"closes"
CLOSES_LATER, SWALLOWS, RESETS_NEXT, UNASKED = b"later", b"swallows", b"resets-next", b"unasked"
# The same, if it gives none.
DIES, CUTS, RESETS, HANGS = b"dies", b"cuts", b"resets", b"hangs"
# How often each comes.
WEIGHTS = {
    PLAIN: 600,
    LATE: 60,
    BIG: 12,
    CHUNKS: 60,
    EARLY: 6,
    TO_THE_END: 20,
    SAYS_CLOSE: 20,
    VERSION_0: 20,
    CLOSES: 30,
    CLOSES_LATER: 50,
    SWALLOWS: 20,
    RESETS_NEXT: 20,
    UNASKED: 20,
    DIES: 8,
    CUTS: 8,
    RESETS: 8,
    HANGS: 1,
}
WHOLE = frozenset(WEIGHTS) - {DIES, CUTS, RESETS, HANGS}
LARGE = 200_000


class Named(NamedTuple):
    """The parts of a target."""

    kind: bytes
    number: int


def target_of(kind: bytes, number: int) -> bytes:
    return b"/%s/%d" % (kind, number)


def named_by(target: bytes) -> Named:
    _, kind, number = target.split(b"/")
    return Named(kind, int(number))


def content_of(method: bytes, target: bytes, body: bytes) -> bytes:
    """The content that a request is given. That of no other request is the same."""
    text = b"%s %s %d %08x\n" % (method, target, len(body), zlib.crc32(body))
    return text * (LARGE // len(text)) if named_by(target).kind == BIG else text
