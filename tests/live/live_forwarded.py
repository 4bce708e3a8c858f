"""`bg_switch serve --forwarded` on loopback: what a request tells its endpoint of where it comes
from, what becomes of what its client tells, and the ids of requests."""
import contextlib
import pathlib
import re
import socket
import tempfile
from collections.abc import Iterator, Sequence
from typing import NamedTuple

from support import checks
from support.access_logs import entries_of
from support.checks import check, comes
from support.clients import asked, received
from support.endpoints import LONGEST, Request
from support.kept import KeptClient, KeptEndpoint
from support.messages import BY_HAND, request
from support.ports import HOST, IPV6, free_ports, has_ipv6
from support.switch import Switch
from support.traffic import ACCESS_LOG, prepared_log

# isort: split; `support` tells where the tools' package is
from bg_switch_tools.switch.access_log import LogEntry

FORWARDED, TRUSTS, KEEP_ALIVE, STREAM = (
    "--forwarded",
    "--trust-forwarded",
    "--keep-alive",
    "--stream",
)
ID = re.compile(rb"[0-9a-f]{32}")
FOR, PROTO, NAME, ELEMENT, REQUEST_ID = (
    b"X-Forwarded-For",
    b"X-Forwarded-Proto",
    b"X-Forwarded-Host",
    b"Forwarded",
    b"X-Request-Id",
)
NAMES = (FOR, PROTO, NAME, ELEMENT, REQUEST_ID)
# What a client says of where its request comes from, in several spellings.
CLAIMS = (
    b"X-Forwarded-For: 203.0.113.9\r\nx-forwarded-proto: https\r\nX_Forwarded_Host: evil\r\n"
    b"FORWARDED: for=203.0.113.9\r\nX-Request-ID: mine\r\n"
)


def with_fields(fields: bytes, text: bytes = request()) -> bytes:
    """A request with these fields behind its Host."""
    return text.replace(b"Host: x\r\n", b"Host: x\r\n" + fields, 1)


class Telling(NamedTuple):
    """A switch with endpoints of both services, and the file of its access log."""

    switch: Switch
    active: KeptEndpoint
    preview: KeptEndpoint
    log: pathlib.Path

    def entries(self, count: int) -> list[LogEntry]:
        """The entries of the log, once there are `count` of them."""
        return entries_of(self.log, count)


@contextlib.contextmanager
def telling(*flags: str, addresses: Sequence[str] = (), concurrency: int = 4) -> Iterator[Telling]:
    """A switch with these flags, of which a second revision is behind the preview service."""
    with tempfile.TemporaryDirectory() as folder:
        log, active, preview = pathlib.Path(folder) / "log", KeptEndpoint(), KeptEndpoint()
        listens = [word for address in addresses for word in ("--listen", address)]
        switch = Switch(
            BY_HAND,
            instead_of_workers=("--concurrency", str(concurrency)),
            flags=(*flags, *listens),
            ports=free_ports(3),
            variables=prepared_log(log) | {ACCESS_LOG: str(log)},
        )
        try:
            for line in (
                f"open one {active.port}",
                "available 1 1",
                f"deploy two {preview.port}",
                "available 2 1",
            ):
                check(line, switch.answer_to(line).partition(" ")[0], "ok")
            yield Telling(switch, active, preview, log)
        finally:
            switch.stop()
            active.stop()
            preview.stop()


def told(asked_for: Request) -> dict[bytes, list[bytes]]:
    """The values of the fields of this kind that an endpoint was told, by their names."""
    return {
        name: values
        for name in NAMES
        if (values := [value for field, value in asked_for.fields if field.lower() == name.lower()])
    }


def spellings(asked_for: Request) -> set[bytes]:
    """The names of the fields that tell where a request comes from, as they are spelled."""
    plain = {name.lower() for name in NAMES}
    return {name for name, _ in asked_for.fields if name.lower().replace(b"_", b"-") in plain}


def of_stranger(host: bytes | None, client: bytes = HOST.encode()) -> dict[bytes, list[bytes]]:
    """What an endpoint is told of a client that is not trusted, without the id."""
    node = b'"[%s]"' % client if b":" in client else client
    name = b"" if host is None else b';host="%s"' % host
    return {
        FOR: [client],
        PROTO: [b"http"],
        **({} if host is None else {NAME: [host]}),
        ELEMENT: [b"for=%s%s;proto=http" % (node, name)],
    }


def without_id(values: dict[bytes, list[bytes]]) -> dict[bytes, list[bytes]]:
    return {name: one for name, one in values.items() if name != REQUEST_ID}


def strangers() -> None:
    """A client is told of by its address, and what it tells itself is dropped, in any spelling."""
    with telling(FORWARDED) as tells:
        for name, text, host in (
            ("plain", request(), b"x"),
            ("with claims", with_fields(CLAIMS), b"x"),
            (
                "a Connection that names the fields",
                with_fields(b"Connection: " + b", ".join(NAMES) + b"\r\n" + CLAIMS),
                b"x",
            ),
            ("a Host with a port", request().replace(b"Host: x", b"Host: web:8080"), b"web:8080"),
            ("version 1.0 without a Host", b"GET / HTTP/1.0\r\n\r\n", None),
        ):
            check(
                f"{name}: status",
                (asked(tells.switch.active, text) or b"")[:15],
                b"HTTP/1.1 200 OK",
            )
            last = tells.active.requests[-1]
            check(f"{name}: what is told", without_id(told(last)), of_stranger(host))
            check(
                f"{name}: one id",
                [bool(ID.fullmatch(one)) for one in told(last)[REQUEST_ID]],
                [True],
            )
            check(f"{name}: no other spelling", spellings(last) <= set(NAMES), True)
        check(
            "the preview service",
            (asked(tells.switch.preview, with_fields(CLAIMS)) or b"")[:15],
            b"HTTP/1.1 200 OK",
        )
        check(
            "its endpoint is told, too",
            without_id(told(tells.preview.requests[-1])),
            of_stranger(b"x"),
        )


def quoted_hosts() -> None:
    """A Host with a quotation mark or a backslash stands in the element as a quoted string."""
    with telling(FORWARDED) as tells:
        asked(tells.switch.active, request().replace(b"Host: x", b'Host: a"b\\c'))
        values = told(tells.active.requests[-1])
        check("the element", values[ELEMENT], [b'for=127.0.0.1;host="a\\"b\\\\c";proto=http'])
        check("X-Forwarded-Host", values[NAME], [b'a"b\\c'])


def other_fields_stay() -> None:
    """All other fields, and the body, are forwarded as without the flag, and in their order."""
    fields = b"A: 1\r\nX-Forwarded-Port: 8\r\nB: 2\r\nConnection: B\r\nX-Real-IP: 203.0.113.9\r\n"
    text = with_fields(fields, request(b"/p", b"POST", b"body"))
    with telling() as plain, telling(FORWARDED) as tells:
        asked(plain.switch.active, text)
        asked(tells.switch.active, text)
        before, now = plain.active.requests[-1], tells.active.requests[-1]
        check("the other fields", [one for one in now.fields if one[0] not in NAMES], before.fields)
        check(
            "method, target and body", (now.method, now.target, now.body), (b"POST", b"/p", b"body")
        )


def without_the_flag() -> None:
    """Without the flag nothing is told, what clients tell goes on, and the log has no ids."""
    with telling() as tells:
        asked(tells.switch.active, with_fields(CLAIMS))
        asked(tells.switch.active, request())
        first, second = tells.active.requests
        check("what a client tells goes on", len(spellings(first)), 5)
        check("nothing is told", told(second), {})
        check("no ids in the log", [one.request_id for one in tells.entries(2)], [None, None])


def proxies() -> None:
    """What a trusted proxy tells goes on, and this proxy adds itself."""
    with telling(FORWARDED, TRUSTS) as tells:
        asked(tells.switch.active, with_fields(CLAIMS.replace(b"X_Forwarded_Host", NAME)))
        values = told(tells.active.requests[-1])
        check("the addresses", values[FOR], [b"203.0.113.9", b"127.0.0.1"])
        check(
            "the elements",
            values[ELEMENT],
            [b"for=203.0.113.9", b'for=127.0.0.1;host="x";proto=http'],
        )
        check(
            "the scheme, the host and the id of the proxy",
            (values[PROTO], values[NAME], values[REQUEST_ID]),
            ([b"https"], [b"evil"], [b"mine"]),
        )
        check("its id in the log", [one.request_id for one in tells.entries(1)], ["mine"])
        asked(tells.switch.active, request())
        check(
            "a proxy that tells nothing",
            without_id(told(tells.active.requests[-1])),
            of_stranger(b"x"),
        )


def ids() -> None:
    """Each request has an id of its own, also on kept connections, and the log has it with the
    number of the request."""
    with telling(FORWARDED, KEEP_ALIVE, STREAM) as tells:
        with KeptClient(tells.switch.active) as client:
            for _ in range(5):
                client.answer_to(request())
        asked(tells.switch.active, request(b"/p", b"POST", b"body"))
        sent = [told(one)[REQUEST_ID][0].decode() for one in tells.active.requests]
        entries = tells.entries(6)
        check("different ids", len(set(sent)), 6)
        check("those of the log", sorted(str(one.request_id) for one in entries), sorted(sent))
        numbers = [int(str(one.request_id)[16:], 16) for one in entries]
        check("with the numbers of the requests", numbers, [one.request for one in entries])
        runs = {one[:16] for one in sent}
    with telling(FORWARDED) as other:
        asked(other.switch.active, request())
        second = told(other.active.requests[-1])[REQUEST_ID][0].decode()
        check("the first number of another run", second[16:], f"{1:016x}")
        check("its ids differ", second[:16] in runs, False)


def ipv6() -> None:
    """A client at an IPv6 address is told in brackets and quotation marks."""
    if not has_ipv6():
        return
    with telling(FORWARDED, addresses=(HOST, IPV6)) as tells:
        with socket.create_connection((IPV6, tells.switch.active), LONGEST) as client:
            client.sendall(request())
            received(client)
        check("::1", without_id(told(tells.active.requests[-1])), of_stranger(b"x", b"::1"))


def many() -> None:
    """Three hundred requests at once: each has its own id, and none is lost."""
    with telling(FORWARDED, KEEP_ALIVE, "--redispatch", concurrency=64) as tells:
        clients = [KeptClient(tells.switch.active) for _ in range(30)]
        with contextlib.ExitStack() as stack:
            for client in clients:
                stack.enter_context(client)
            for _ in range(10):
                for client in clients:
                    client.send(with_fields(CLAIMS))
                answers = [client.answer()[:15] for client in clients]
                check("answers", set(answers), {b"HTTP/1.1 200 OK"})
        check("ids", len({told(one)[REQUEST_ID][0] for one in tells.active.requests}), 300)
        check("the operators' count", comes(lambda: tells.switch.open_requests() == [0, 0]), True)


if __name__ == "__main__":
    checks.run(
        "live_forwarded",
        (
            strangers,
            quoted_hosts,
            other_fields_stay,
            without_the_flag,
            proxies,
            ids,
            ipv6,
            many,
        ),
    )
