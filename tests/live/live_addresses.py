"""The addresses of a running `serve`: endpoints elsewhere than at 127.0.0.1, client ports there,
ports of the switch itself at the address of the endpoints, and addresses that are refused."""
import contextlib
import signal
import socket
from collections.abc import Iterator, Sequence

from support import PROGRAM, checks, clients, processes
from support.checks import check, comes
from support.endpoints import Endpoint, Held, by_target
from support.messages import BAD_GATEWAY, NO_PREVIEW, ROLLOUT, answer, request
from support.ports import HOST, IPV6, free_port, free_ports, has_ipv6, is_open
from support.switch import LISTENING, Switch, run_to_end, words_of_serve

ENDPOINTS = "127.0.0.2"
ALL, ALL_IPV6 = "0.0.0.0", "::"
# An address of a network for documentation (RFC 5737), which no machine has.
ELSEWHERE = "192.0.2.1"
THERE, HERE = b"at the address", b"at 127.0.0.1"
KEPT = "--keep-alive"


HAS_IPV6 = has_ipv6()


def with_ipv6(*addresses: str) -> tuple[str, ...]:
    """These addresses, and ::1 if the machine has it."""
    return (*addresses, *([IPV6] if HAS_IPV6 else []))


@contextlib.contextmanager
def switch_of(
    port: int, *flags: str, ports: Sequence[int] = (), workers: int = 2
) -> Iterator[Switch]:
    """A switch with these flags, whose first revision has this port."""
    switch = Switch(ROLLOUT, workers=workers, flags=flags, ports=ports)
    try:
        check("listening", switch.first, LISTENING)
        with contextlib.closing(switch.operator()) as operator:
            operator.check(f"open one {port}", "ok 0")
            operator.check("available 1 1", "ok 0")
        yield switch
    finally:
        switch.stop()


@contextlib.contextmanager
def endpoint_at(address: str, port: int, body: bytes) -> Iterator[Endpoint]:
    """An endpoint at a port of an address."""
    endpoint = Endpoint(by_target(body), port, address)
    try:
        yield endpoint
    finally:
        endpoint.stop()


def endpoints_elsewhere() -> None:
    """Requests are dialled at the address that is given, and not at 127.0.0.1."""
    for address in with_ipv6(ENDPOINTS):
        for flags in ((), (KEPT,), ("--redispatch",)):
            port = free_port()
            with endpoint_at(address, port, THERE) as endpoint, endpoint_at(HOST, port, HERE):
                with switch_of(port, "--endpoint-address", address, *flags) as switch:
                    got = {clients.get(switch.active) for _ in range(3)}
                    check(f"an endpoint at {address} {flags}", got, {(200, THERE)})
                check(f"the requests of {address} {flags}", endpoint.served, 3)


def endpoints_at_a_mapped_address() -> None:
    """An IPv4-mapped IPv6 address stands for the IPv4 address in it."""
    with endpoint_at(ENDPOINTS, 0, THERE) as endpoint:
        with switch_of(endpoint.port, "--endpoint-address", f"::ffff:{ENDPOINTS}") as switch:
            check("a mapped address", clients.asked(switch.active, request()), answer(THERE))


def no_endpoint_there() -> None:
    """An endpoint at 127.0.0.1 is none at another address."""
    with endpoint_at(HOST, 0, HERE) as endpoint:
        with switch_of(endpoint.port, "--endpoint-address", ENDPOINTS) as switch:
            check("no endpoint there", clients.asked(switch.active, request()), BAD_GATEWAY)
        with switch_of(endpoint.port, "--endpoint-address", HOST) as switch:
            check("127.0.0.1 is given", clients.asked(switch.active, request()), answer(HERE))


def ports_of_the_switch() -> None:
    """A number is a port of the switch itself only at 127.0.0.1."""
    active, _, control = ports = free_ports(3)
    elsewhere = ("--endpoint-address", ENDPOINTS)
    for name, port, flags, expected in (
        ("the active port", active, (), BAD_GATEWAY),
        ("the control port", control, ("--endpoint-address", HOST), BAD_GATEWAY),
        ("a mapped address", active, ("--endpoint-address", f"::ffff:{HOST}"), BAD_GATEWAY),
        ("the number of the active port elsewhere", active, elsewhere, answer(THERE)),
        ("the number of the control port elsewhere", control, elsewhere, answer(THERE)),
    ):
        with endpoint_at(ENDPOINTS, port, THERE), switch_of(port, *flags, ports=ports) as switch:
            check(name, clients.asked(switch.active, request()), expected)
            check(f"{name}: no request is open", comes(lambda: switch.open_requests() == [0]), True)


def listening_at(*addresses: str) -> list[str]:
    """The flags by which client ports listen at these addresses."""
    return [word for address in addresses for word in ("--listen", address)]


def connected(address: str, port: int) -> socket.socket:
    """A connection to a port of an address."""
    return socket.create_connection((address, port), timeout=clients.LONGEST)


def answer_at(address: str, port: int) -> bytes | None:
    """What a request to a port of an address is answered, or None if the connection is refused."""
    try:
        with connected(address, port) as client:
            return clients.answer_of(client, request())
    except ConnectionRefusedError:
        return None


def clients_at_each_address() -> None:
    """Both client ports are at each address that is given and at no other one, and the control port
    at 127.0.0.1 alone."""
    everywhere = with_ipv6(HOST, ENDPOINTS)
    for given, reached in (
        ((), {HOST}),
        ((ENDPOINTS,), {ENDPOINTS}),
        ((HOST, ENDPOINTS), {HOST, ENDPOINTS}),
        ((ALL,), {HOST, ENDPOINTS}),
        *(
            (
                ((IPV6,), {IPV6}),
                ((f"::ffff:{ENDPOINTS}", IPV6), {ENDPOINTS, IPV6}),
                ((ALL_IPV6,), {IPV6}),
                ((ALL, ALL_IPV6), set(everywhere)),
            )
            if HAS_IPV6
            else ()
        ),
    ):
        with endpoint_at(HOST, 0, HERE) as endpoint:
            with switch_of(endpoint.port, *listening_at(*given)) as switch:
                for name, port in (("active", switch.active), ("preview", switch.preview)):
                    check(
                        f"{name} at {given}",
                        {address: answer_at(address, port) for address in everywhere},
                        {a: answer(HERE) if a in reached else None for a in everywhere},
                    )
                others = [address for address in everywhere if address != HOST]
                check(
                    f"control beside {given}",
                    [answer_at(address, switch.control) for address in others],
                    [None] * len(others),
                )


def ports_below_a_wildcard() -> None:
    """A client port is the switch's own at each address at which it listens, and the control port at
    127.0.0.1 alone."""
    active, _, control = ports = free_ports(3)
    for name, port, at, given, expected in (
        ("the active port below the wildcard", active, ENDPOINTS, (ALL,), BAD_GATEWAY),
        ("the control port there", control, ENDPOINTS, (ALL,), answer(THERE)),
        ("the active port at its address", active, ENDPOINTS, (HOST, ENDPOINTS), BAD_GATEWAY),
        ("its number at another address", active, "127.0.0.3", (HOST, ENDPOINTS), answer(THERE)),
        ("its number at 127.0.0.1", active, HOST, (ENDPOINTS,), answer(THERE)),
    ):
        client = given[-1] if given[0] != ALL else HOST
        with contextlib.ExitStack() as stack:
            if expected != BAD_GATEWAY:
                stack.enter_context(endpoint_at(at, port, THERE))
            flags = ("--endpoint-address", at, *listening_at(*given))
            switch = stack.enter_context(switch_of(port, *flags, ports=ports))
            check(name, answer_at(client, active), expected)
            check(f"{name}: no request is open", comes(lambda: switch.open_requests() == [0]), True)


def ports_that_cannot_be_bound() -> None:
    """The port is named with the address at which it cannot be bound."""
    with socket.create_server((ENDPOINTS, 0)) as taken:
        port = int(taken.getsockname()[1])
        for word, ports in (
            ("active", (port, *free_ports(2))),
            ("preview", (*free_ports(2), port)),
        ):
            run = run_to_end(ROLLOUT, *ports, flags=listening_at(HOST, ENDPOINTS))
            reason = f"bg_switch: port {port} of {ENDPOINTS} (--{word}) can't be bound: "
            check(
                f"{word} in use", (run.told.startswith(reason), run.printed), (True, "fault Bind\n")
            )
    active, control = free_ports(2)
    run = run_to_end(NO_PREVIEW, active, control, flags=listening_at(ELSEWHERE))
    reason = f"bg_switch: port {active} of {ELSEWHERE} (--active) can't be bound: Cannot assign"
    check("an address of no machine", (run.told.startswith(reason), run.status), (True, 1))


def backlogs_at_quit() -> None:
    """Requests that wait in the backlogs of two listeners at a shutdown are answered."""
    held = Held(HERE)
    addresses = (HOST, ENDPOINTS)
    switch = Switch(ROLLOUT, workers=2, flags=listening_at(*addresses))
    check("listening", switch.first, LISTENING)
    operator = switch.operator()
    operator.check(f"open one {Endpoint(held).port}", "ok 0")
    operator.check("available 1 1", "ok 0")
    waiting = [connected(address, switch.active) for address in addresses]
    for client in waiting:
        client.sendall(request())
    check("both requests are at the endpoint", held.holds(2), True)
    processes.pause(switch.process.pid)
    waiting += [connected(address, switch.active) for address in addresses for _ in range(20)]
    for client in waiting[2:]:
        client.sendall(request())
    operator.send_quit()
    switch.process.send_signal(signal.SIGCONT)
    check("both listeners are closed", comes(lambda: not is_open(switch.active)), True)
    held.is_free.set()
    answers = [clients.received(client) for client in waiting]
    check("requests of two backlogs", answers, [answer(HERE)] * 42)
    check("the end after two backlogs", switch.wait().status, 0)
    operator.close()


def words_that_are_refused() -> None:
    """What is no address, what is none of endpoints, and at what no port can listen."""
    beside, nine = "no other address of its family can stand beside", [
        f"127.0.0.{n}" for n in range(1, 10)
    ]
    for told, flags in (
        ("it is no IPv4 or IPv6 address", ["--endpoint-address", "localhost"]),
        ("it is no IPv4 or IPv6 address", ["--endpoint-address", "256.0.0.1"]),
        ("it is no IPv4 or IPv6 address", ["--endpoint-address", "127.0.0.1:80"]),
        ("it is no IPv4 or IPv6 address", ["--endpoint-address", "fe80::1%lo"]),
        ("no connection can be opened to it", ["--endpoint-address", "0.0.0.0"]),
        ("no connection can be opened to it", ["--endpoint-address", "::"]),
        ("no connection can be opened to it", ["--endpoint-address", "::ffff:0.0.0.0"]),
        ("cannot be used multiple times", ["--endpoint-address", HOST] * 2),
        (
            "invalid value 'localhost' for '--listen <ADDRESS>': it is no IPv4",
            listening_at("localhost"),
        ),
        ("it is no IPv4 or IPv6 address", listening_at(HOST, "fe80::1%lo")),
        ("the address is given twice", listening_at(HOST, ENDPOINTS, HOST)),
        ("the address is given twice", listening_at(HOST, f"::ffff:{HOST}")),
        ("the address is given twice", listening_at(ALL, ALL)),
        (
            f"invalid value '{HOST}' for '--listen <ADDRESS>': {beside} {ALL}",
            listening_at(ALL, HOST),
        ),
        (f"{beside} {ALL}", listening_at(HOST, IPV6, ALL)),
        (f"{beside} {ALL_IPV6}", listening_at(ALL_IPV6, IPV6)),
        (f"{beside} {ALL_IPV6}", listening_at(IPV6, ALL, ALL_IPV6)),
        ("invalid value '127.0.0.9' for '--listen <ADDRESS>': at most 8", listening_at(*nine)),
    ):
        active, control = free_ports(2)
        words = [PROGRAM, *words_of_serve(active, control, None, 1, 1), *flags]
        run = processes.run_to_end(words, NO_PREVIEW)
        check(f"{flags} {told}", (told in run.told, run.printed, run.status), (True, "", 2))


if __name__ == "__main__":
    if not HAS_IPV6:
        print("live_addresses: this machine has no ::1, so IPv6 is left out", flush=True)
    checks.run(
        "live_addresses",
        [
            endpoints_elsewhere,
            endpoints_at_a_mapped_address,
            no_endpoint_there,
            ports_of_the_switch,
            words_that_are_refused,
            clients_at_each_address,
            ports_below_a_wildcard,
            ports_that_cannot_be_bound,
            backlogs_at_quit,
        ],
        at_once=4,
    )
