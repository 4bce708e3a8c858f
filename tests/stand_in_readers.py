"""Stand-ins for servers that read ambiguous requests, and the messages that tests give them."""
import io
from collections.abc import Sequence
from typing import NamedTuple

from support.smuggling.corpus import corpus
from support.smuggling.echo import MalformedRequestError, request_in
from support.smuggling.messages import HIDDEN, Message
from support.smuggling.readings import Item, Read, Reading

# The fields by which a stand-in finds the end of a body, the one that it prefers first.
LENGTH, CODING = b"content-length", b"transfer-encoding"
# A text as the switch writes it.
GOOD = b"POST /m HTTP/1.1\r\nHost: web\r\nContent-Length: 36\r\nConnection: close\r\n\r\n" + HIDDEN


class StandIn(NamedTuple):
    """A reader that prefers a field. It refuses what it does not understand."""

    name: str
    prefers: Sequence[bytes] = (CODING, LENGTH)
    joins: bytes = b"-"  # which byte it takes for the hyphen of a name
    refuses: bytes = b"REFUSED"  # the method that it refuses

    def read(self, stream: bytes, last: bytes, patience: float = 1.0) -> Reading:
        items = list[Item]()
        while stream:
            before, end, stream = stream.partition(b"\r\n\r\n")
            if not end:
                return Reading(tuple(items), True)
            line, *lines = before.split(b"\r\n")
            words = line.split(b" ")
            fields = dict[bytes, bytes]()
            for name, _, value in (each.partition(b":") for each in lines):
                fields.setdefault(name.lower().replace(self.joins, b"-"), value.strip())
            body = self.body(fields, stream)
            if len(words) != 3 or body is None or words[0] == self.refuses:
                return Reading((*items, 400))
            if len(body[0]) < body[1]:
                return Reading(tuple(items), True)
            items.append(Read(words[0], words[1], body[0]))
            stream = body[2]
            if items[-1] == Read(b"GET", last, b"") or fields.get(b"connection") == b"close":
                break
        return Reading(tuple(items))

    def body(self, fields: dict[bytes, bytes], stream: bytes) -> tuple[bytes, int, bytes] | None:
        """The body, how long it must be, and what stands behind it."""
        framing = next((field for field in self.prefers if field in fields), None)
        if framing == CODING and fields[CODING] == b"chunked":
            source = io.BytesIO(b"POST / HTTP/1.1\r\nTransfer-Encoding: chunked\r\n\r\n" + stream)
            try:
                body = request_in(source, lambda _: None).body
            except MalformedRequestError:
                return None
            return body, len(body), source.read()
        value = fields.get(LENGTH, b"0") if framing == LENGTH else b"0"
        if not value.isdigit():
            return None
        return stream[: int(value)], int(value), stream[int(value) :]


BY_LENGTH, BY_CODING = StandIn("length", (LENGTH, CODING)), StandIn("coding", (CODING, LENGTH))


def named(name: str) -> Message:
    return next(message for message in corpus() if message.name == name)


def requests(reading: Reading) -> list[Read]:
    return [item for item in reading.items if isinstance(item, Read)]
