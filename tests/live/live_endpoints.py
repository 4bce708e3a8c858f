"""The endpoints of a running `serve`: connects that hang, endpoints that are silent for long,
revisions whose port is one of the switch's own, and revisions one of whose endpoints is sick."""
import concurrent.futures
import contextlib
import json
import math
import pathlib
import socket
import tempfile
import threading
import time
from collections.abc import Callable, Iterator, Mapping, Sequence
from functools import partial
from typing import NamedTuple

from support import checks, clients
from support.checks import check, check_beside, check_soon, check_within, comes
from support.clients import Timed, at_once, timed
from support.endpoints import (
    CUT_HEAD,
    Answer,
    Endpoint,
    EndpointProcess,
    Request,
    by_target,
    full_backlog,
    full_listener,
    in_pieces,
    reset_at_once,
)
from support.messages import BAD_GATEWAY, ROLLOUT, answer, request, response
from support.pace import is_busy, slowness
from support.ports import free_port, free_ports
from support.switch import LISTENING, TIMEOUT_VARIABLE, LaterEnd, Switch, serving
from support.traffic import prepared_log

# How long, in seconds, a connect takes at most, and how long an endpoint may be silent, unless the
# timeout is longer.
CONNECT = 5
SILENCE = 30
# Silences of one response, in seconds: each is below the limit, and their sum is above it.
SILENCES, EACH_SILENCE = 3, 12
# What a wait may take, in seconds, beyond its limit: the machine may be busy.
SLACK = 4.0
SOON = 2.0
# After how many seconds an endpoint begins to accept. The system tries a connect again after one
# second and after three.
BEGINS, CONNECTED = 1.5, 3


def check_gateway(name: str, got: Timed, least: float, most: float) -> None:
    """Checks that a client was answered 502, not before a time and not after another."""
    check(f"{name}: 502", got.answer, BAD_GATEWAY)
    check(f"{name}: not before its time", got.seconds >= least, True)
    check_soon(f"{name}: no later", got.seconds, most)


def connects_that_hang() -> None:
    """A connect to an endpoint whose backlog is full takes 5 seconds at most, and its seat is free
    again."""
    with full_backlog() as port, serving(port, workers=3) as switch:
        for got in at_once([partial(timed, switch.active)] * 6):
            check_gateway("a connect that hangs", got, CONNECT - 0.5, 2 * CONNECT + SLACK)
        check(
            "no request whose connect hung is open",
            comes(lambda: switch.open_requests() == [0]),
            True,
        )


def connects_within_the_timeout() -> None:
    """If the timeout is shorter than 5 seconds, a connect takes no longer."""
    with full_backlog() as port, serving(port, timeout=2) as switch, serving(port) as other:
        got, later = at_once([partial(timed, each.active) for each in (switch, other)])
        check_gateway("a connect that hangs for longer than the timeout", got, 1.5, later.seconds)
        check("one without a timeout is longer", got.seconds < later.seconds, True)


def asked_of_late_endpoint(answer_by: Answer, timeout: int) -> Timed:
    """What a client is answered whose endpoint begins to accept late, and how long that takes."""
    endpoint = Endpoint(answer_by)
    with full_listener() as listener, serving(listener.getsockname()[1], timeout=timeout) as switch:
        begin = threading.Timer(BEGINS, endpoint.accept, (listener,))
        begin.daemon = True
        begin.start()
        return timed(switch.active)


def connects_in_time() -> None:
    """An endpoint whose backlog has room again within 5 seconds is connected to."""
    got = asked_of_late_endpoint(by_target(b"late"), 40)
    check(
        "a connect that hangs for a while",
        (got.answer, got.seconds > BEGINS),
        (answer(b"late"), True),
    )


def timeout_begins_before_the_connect() -> None:
    timeout = 6
    endless = in_pieces([response(bytes(1000))[:-1000], *[b"x"] * 1000], 0.3)
    later = LaterEnd(timeout + CONNECTED - 1)
    got = asked_of_late_endpoint(endless, timeout)
    check_gateway(
        "a response without end behind a connect that hung", got, timeout - 0.5, timeout + 2.5
    )
    check(
        "it has ended before one whose timeout began with the connection",
        later.is_after(got.seconds),
        True,
    )


def own_ports() -> None:
    """A request whose endpoint is a port of the switch itself is answered 502 at once, and isn't
    sent there."""
    for name in ("active", "preview", "control"):
        switch = Switch(ROLLOUT, workers=3, timeout=40)
        check("listening", switch.first, LISTENING)
        port = {"active": switch.active, "preview": switch.preview, "control": switch.control}[name]
        check(f"open with the {name} port", switch.answer_to(f"open one {port}"), "ok 0")
        check("available", switch.answer_to("available 1 1"), "ok 0")
        lines = b"\ndeploy evil 22402\navailable 2 1\n"
        for client_port in (switch.active, switch.preview):
            got = timed(client_port, [request(b"/", b"POST", lines)])
            check_gateway(f"the {name} port as an endpoint", got, 0, SOON)
        with contextlib.closing(switch.operator()) as operator:
            check(
                f"no line of a client is carried out: the {name} port as an endpoint",
                list(operator.state().revisions),
                [1],
            )
            # a client may have its answer just before its request leaves
            left = comes(lambda: operator.open_requests() == [0])
            check(f"no request is open: the {name} port as an endpoint", left, True)
        switch.stop()


def silent_for(seconds: float) -> Answer:
    """Answers after `seconds` seconds."""

    def answer_late(_: Request, connection: socket.socket) -> None:
        time.sleep(seconds)
        connection.sendall(response(b"late"))

    return answer_late


def silence() -> None:
    """Without a timeout an endpoint may be silent for 30 seconds."""
    with serving(Endpoint(silent_for(SILENCE + 20)).port) as switch:
        check_gateway(
            "an endpoint that is silent for more than 30 seconds",
            timed(switch.active),
            SILENCE - 1,
            SILENCE + SLACK,
        )


def silences() -> None:
    """An endpoint may be silent for 30 seconds each time, and not in all: its response comes in
    pieces."""
    whole = response(b"late")
    pieces = [b"", whole[:20], whole[20:-2], whole[-2:]]
    with serving(Endpoint(in_pieces(pieces, EACH_SILENCE)).port) as switch:
        got = timed(switch.active)
    check(
        "an endpoint that is silent for 12 seconds three times",
        (got.answer, got.seconds >= SILENCES * EACH_SILENCE),
        (answer(b"late"), True),
    )


def answered_after(seconds: int, timeout: int) -> None:
    with serving(Endpoint(silent_for(seconds)).port, timeout=timeout) as switch:
        got = timed(switch.active)
    check(
        f"a silence of {seconds} seconds within a timeout of {timeout}",
        (got.answer, got.seconds >= seconds),
        (answer(b"late"), True),
    )


def silence_within_the_timeout() -> None:
    """If the timeout is longer than 30 seconds, an endpoint may be silent for as long."""
    answered_after(33, 45)


def long_silence() -> None:
    answered_after(100, 120)


def silence_past_the_timeout() -> None:
    with serving(Endpoint(silent_for(60)).port, timeout=33) as switch:
        check_gateway(
            "an endpoint that is silent for more than a timeout of 33 seconds",
            timed(switch.active),
            32,
            33 + SLACK,
        )


def timeouts() -> None:
    """A timeout is a number from 1 to 3600; another one is told."""
    for timeout, is_good in ((1, True), (3600, True), (3601, False), (0, False)):
        with serving(Endpoint(by_target(b"one")).port, timeout=timeout) as switch:
            check(f"a timeout of {timeout}", timed(switch.active).answer, answer(b"one"))
            if is_good:
                check(f"a timeout of {timeout} is good", switch.told, [])
            else:
                check(
                    f"a timeout of {timeout} is told", switch.tells(TIMEOUT_VARIABLE, "3600"), True
                )


# A revision of two endpoints, and the words by which the switch asks another one than the slot's.
TWO = ROLLOUT.replace('{"strategy"', '{"replicas": 2, "strategy"')
REDISPATCH = ("--redispatch",)
CONCURRENCY = 64
# Requests a second on a free machine, for how many seconds, and after how many of them the endpoint
# becomes sick.
RATE, LASTS, SICK_AFTER = 100, 8.0, 1.0
# The timeout of a response there, in seconds, and what a request takes at most that isn't at a sick
# endpoint.
SHORT_TIMEOUT = 4
PROMPT = 1.5
# How many times as slow a machine is at most for which requests are rarer, and have longer.
SLOWEST = 15.0
# A timeout, in seconds, that ends nothing on a busy machine.
LONG_TIMEOUT = 600
# For how many seconds a port is asked last whose connect has failed, and how often that is tried: a
# busy machine may need longer for a few requests.
MARKED, ROUNDS = 1.0, 10
ONE, OTHER = answer(b"one"), answer(b"two")


class Tempo(NamedTuple):
    """Requests a second, and the timeout of a response in seconds: on a busy machine fewer come, and
    each has longer."""

    rate: float
    timeout: int


def tempo() -> Tempo:
    """As the machine can keep it now. The timeout stays far below the time for which a client
    waits."""
    slow = min(slowness(), SLOWEST)
    return Tempo(RATE / slow, math.ceil(SHORT_TIMEOUT * slow))


class Sent(NamedTuple):
    """A request: after how many seconds of the traffic it began, what it was answered, and how long
    that took."""

    begun: float
    answer: bytes
    seconds: float


def sent(port: int, start: float) -> Sent:
    begun = time.monotonic() - start
    got = timed(port)
    return Sent(begun, got.answer, got.seconds)


def traffic(
    port: int, rate: float, become_sick: Callable[[], object], lasts: float = LASTS
) -> list[Sent]:
    """`rate` requests a second, whatever becomes of those before. An endpoint becomes sick after a
    while."""
    start = time.monotonic()
    with concurrent.futures.ThreadPoolExecutor(4 * CONCURRENCY) as pool:
        timer = threading.Timer(SICK_AFTER, become_sick)
        timer.start()
        asked = []
        for number in range(int(rate * lasts)):
            time.sleep(max(0.0, start + number / rate - time.monotonic()))
            asked.append(pool.submit(sent, port, start))
        timer.join()
        return [one.result() for one in asked]


@contextlib.contextmanager
def serving_two(
    ports: Sequence[int],
    options: Sequence[str] = REDISPATCH,
    variables: Mapping[str, str] | None = None,
    timeout: int = LONG_TIMEOUT,
    available: int = 2,
) -> Iterator[Switch]:
    """A switch whose first revision has two endpoints, of which `available` are available."""
    switch = Switch(
        TWO,
        instead_of_workers=("--concurrency", str(CONCURRENCY), *options),
        timeout=timeout,
        variables=variables,
    )
    check("listening", switch.first, LISTENING)
    for line in (f"open one {ports[0]} {ports[1]}", f"available 1 {available}"):
        check(line, switch.answer_to(line), "ok 0")
    try:
        yield switch
    finally:
        switch.stop()


def two_processes() -> tuple[EndpointProcess, EndpointProcess]:
    ports = free_ports(2)
    return EndpointProcess("one", ports[0]), EndpointProcess("two", ports[1])


def failed(all_sent: Sequence[Sent]) -> list[Sent]:
    return [one for one in all_sent if one.answer not in (ONE, OTHER)]


def check_prompt(name: str, some: Sequence[Sent], all_sent: Sequence[Sent]) -> None:
    """Checks that these requests are prompt, beside those of the same run that ended before the
    endpoint became sick."""
    before = [one.seconds for one in all_sent if one.begun + one.seconds < SICK_AFTER]
    check_beside(name, [one.seconds for one in some], before, PROMPT)


def killed_one(place: int) -> None:
    """One of two endpoints is killed under traffic: no request fails that begins afterwards, and
    each is prompt."""
    both, pace = two_processes(), tempo()
    name = f"{('the first', 'the second')[place]} of two endpoints is killed"
    killed_at: list[float] = []

    def kill() -> None:
        both[place].kill()
        killed_at.append(time.monotonic())

    with serving_two([one.port for one in both], timeout=pace.timeout) as switch:
        start = time.monotonic()
        all_sent = traffic(switch.active, pace.rate, kill, 4.0)
    late = [one for one in failed(all_sent) if start + one.begun > killed_at[0]]
    check(f"{name}: no later request fails", late, [])
    check(f"{name}: few fail that were there", len(failed(all_sent)) <= RATE // 5, True)
    check_prompt(f"{name}: each is prompt", all_sent, all_sent)
    check_within(
        f"{name}: none waits for the timeout",
        max(one.seconds for one in all_sent),
        pace.timeout - 0.5,
    )
    both[1 - place].kill()


def killed_first() -> None:
    killed_one(0)


def killed_second() -> None:
    killed_one(1)


def killed_both() -> None:
    """With both endpoints killed each answer is 502, at once; an endpoint that comes back is asked
    at once."""
    both = two_processes()
    with serving_two([one.port for one in both]) as switch:
        for one in both:
            one.kill()
        for _ in range(8):
            check_gateway("both endpoints are killed", timed(switch.active), 0, PROMPT)
        both[1].start()
        answers = {timed(switch.active).answer for _ in range(8)}
        check("an endpoint that comes back is asked, although both are marked", answers, {OTHER})
    both[1].kill()


def most_at_once(asked: Sequence[Sent]) -> int:
    """How many of these requests were open at a time at most."""
    return max(
        (
            sum(other.begun <= one.begun < other.begun + other.seconds for other in asked)
            for one in asked
        ),
        default=0,
    )


def check_sick(name: str, all_sent: Sequence[Sent], timeout: int) -> None:
    """Checks that only requests failed that were at an endpoint that is silent, and that the others
    were prompt. Its share is half of the concurrency. While a busy machine lets the other one be at
    its own share too, it may get more, and requests wait for seats, so they are not counted there.
    """
    bad = failed(all_sent)
    check(f"{name}: some requests were at it", bool(bad), True)
    check(
        f"{name}: only requests that were at it fail",
        [one for one in bad if one.seconds < timeout - 0.5],
        [],
    )
    if not is_busy():
        check_within(
            f"{name}: requests that wait for it, which leaves seats to the other one",
            most_at_once(bad),
            CONCURRENCY * 3 // 4,
        )
    others = [one for one in all_sent if one not in bad]
    check_prompt(f"{name}: the others are prompt", others, all_sent)
    if not is_busy():
        shortest = min((one.seconds for one in bad), default=0.0)
        check_within(
            f"{name}: the others end before those at it",
            max(one.seconds for one in others),
            shortest,
        )


def stopped() -> None:
    """An endpoint that is stopped accepts connections by its backlog. It takes half of the
    concurrency at most."""
    both, pace = two_processes(), tempo()
    with serving_two([one.port for one in both], timeout=pace.timeout) as switch:
        all_sent = traffic(switch.active, pace.rate, both[0].stop)
    check_sick("an endpoint that is stopped", all_sent, pace.timeout)
    for one in both:
        one.kill()


class Switched:
    """Answers by one function first, and by another one once it is sick."""

    def __init__(self, well: Answer, sick: Answer) -> None:
        self.answer_by = well
        self.sick = sick

    def __call__(self, one: Request, connection: socket.socket) -> None:
        self.answer_by(one, connection)

    def become_sick(self) -> None:
        self.answer_by = self.sick


def sick_by(
    sick: Answer, pace: Tempo, lasts: float = LASTS
) -> tuple[list[Sent], Endpoint, Endpoint]:
    """What is answered if the first of two endpoints becomes sick, and both endpoints."""
    switched = Switched(by_target(b"one"), sick)
    first, second = Endpoint(switched), Endpoint(by_target(b"two"))
    with serving_two([first.port, second.port], timeout=pace.timeout) as switch:
        return traffic(switch.active, pace.rate, switched.become_sick, lasts), first, second


def silent_after_the_head() -> None:
    def cut(_: Request, connection: socket.socket) -> None:
        connection.sendall(CUT_HEAD)
        clients.received(connection)

    pace = tempo()
    all_sent, _, _ = sick_by(cut, pace)
    check_sick("an endpoint that is silent after a part of the head", all_sent, pace.timeout)


def resets() -> None:
    """A request of which the endpoint has got a byte is sent to no other one: it fails, and is
    counted once."""
    all_sent, first, second = sick_by(reset_at_once, tempo(), 4.0)
    answered = [one for one in all_sent if one.answer in (ONE, OTHER)]
    check(
        "an endpoint that resets: each request is sent once",
        first.served + second.served,
        len(all_sent),
    )
    check(
        "an endpoint that resets: those of the other one are answered",
        sum(one.answer == OTHER for one in answered),
        second.served,
    )
    check(
        "an endpoint that resets: its requests fail",
        {one.answer for one in failed(all_sent)},
        {BAD_GATEWAY},
    )


def slow() -> None:
    """An endpoint that is slow fails no request."""

    def answer_slowly(_: Request, connection: socket.socket) -> None:
        time.sleep(1.0)
        connection.sendall(response(b"one"))

    all_sent, _, _ = sick_by(answer_slowly, tempo(), 4.0)
    check("an endpoint that is slow: no request fails", failed(all_sent), [])


def slots_stay() -> None:
    """While both endpoints are well, each request is sent to its slot, with redispatch and without
    it."""
    first, second = Endpoint(by_target(b"one")), Endpoint(by_target(b"two"))
    for options in ((), REDISPATCH):
        with serving_two([first.port, second.port], options) as switch:
            got = [timed(switch.active).answer for _ in range(6)]
        check(f"requests go to their slots {options}", got, [OTHER, ONE] * 3)


def without_redispatch() -> None:
    """Without redispatch a request is sent to its slot's endpoint or to none."""
    first, second = Endpoint(by_target(b"one")), Endpoint(by_target(b"two"))
    first.stop()
    with serving_two([first.port, second.port], ()) as switch:
        got = [timed(switch.active).answer for _ in range(6)]
    check("without redispatch the slot decides", got, [OTHER, BAD_GATEWAY] * 3)


def port_of_two_revisions() -> None:
    """A port that two revisions have is asked for its own slot alone, and there is no redispatch
    for it."""
    first, second, third = (Endpoint(by_target(name)) for name in (b"one", b"two", b"three"))
    first.stop()
    with serving_two([first.port, second.port]) as switch:
        for line in (f"deploy two {first.port} {third.port}", "available 2 1"):
            check(line, switch.answer_to(line).split()[0], "ok")
        got = {timed(switch.active).answer for _ in range(6)}
    check("a port of two revisions", BAD_GATEWAY in got, True)


def logged() -> None:
    """The log has the port that was dialled last, the slot's if it differs, and the number of
    tries."""
    first, second = Endpoint(by_target(b"one")), Endpoint(by_target(b"two"))
    first.stop()
    with tempfile.TemporaryDirectory() as folder:
        path = pathlib.Path(folder) / "log"
        with serving_two([first.port, second.port], variables=prepared_log(path)) as switch:
            for _ in range(2):
                timed(switch.active)
            comes(lambda: path.read_bytes().count(b"\n") >= 2)
            lines = [json.loads(line) for line in path.read_text(encoding="utf-8").splitlines()]
    check(
        "the port, the slot's port and the tries of a log",
        [(line["port"], line.get("slot_port"), line.get("tries")) for line in lines],
        [(second.port, None, 1), (second.port, first.port, 2)],
    )


def marked_is_asked_last() -> None:
    """A port whose connect failed is asked after the others for a second, and then again."""
    first = Endpoint(by_target(b"one"), free_port())
    second = Endpoint(by_target(b"two"))
    first.stop()
    with serving_two([first.port, second.port]) as switch:
        for _ in range(ROUNDS):
            begun = time.monotonic()
            got = [timed(switch.active).answer for _ in range(2)]
            check("a connect that fails is repeated elsewhere", got, [OTHER] * 2)
            first.start()
            got = [timed(switch.active).answer for _ in range(4)]
            is_in_time = time.monotonic() < begun + MARKED
            if is_in_time:
                check("a marked endpoint is not asked", got, [OTHER] * 4)
            time.sleep(1.2 * MARKED)
            got = [timed(switch.active).answer for _ in range(2)]
            check("an endpoint whose mark has ended is asked", ONE in got, True)
            if is_in_time:
                break
            first.stop()


def down() -> None:
    """An endpoint that is down by a line of the operator gets no request while another one takes
    them."""
    first, second = Endpoint(by_target(b"one")), Endpoint(by_target(b"two"))
    with serving_two([first.port, second.port]) as switch:
        check("down", switch.answer_to(f"down {first.port}").split()[0], "ok")
        check("an endpoint that is down", {timed(switch.active).answer for _ in range(6)}, {OTHER})
        check("the other is down", switch.answer_to(f"down {second.port}").split()[0], "ok")
        check(
            "the other one is down in its place",
            {timed(switch.active).answer for _ in range(6)},
            {ONE},
        )


class Held:
    """Answers once it is told to."""

    def __init__(self, body: bytes) -> None:
        self.body = body
        self.may_answer = threading.Event()

    def __call__(self, _: Request, connection: socket.socket) -> None:
        self.may_answer.wait(clients.LONGEST)
        connection.sendall(response(self.body))


def carry_out(switch: Switch, *lines: str) -> None:
    for line in lines:
        check(line, switch.answer_to(line).split()[0], "ok")


def answers_of(switch: Switch, count: int = 6) -> set[bytes]:
    return {timed(switch.active).answer for _ in range(count)}


# How many requests an endpoint gets at a time while another one is free, and how many come in a
# row.
LIMIT, IN_A_ROW = 4, 16


def check_share(name: str, switch: Switch, holds: Endpoint, other: Endpoint) -> None:
    """Checks the share of an endpoint that holds its requests: each other request is its slot's,
    and comes after the one before is answered or held."""
    before = holds.served, other.served
    with concurrent.futures.ThreadPoolExecutor(IN_A_ROW) as pool:
        asked: list[concurrent.futures.Future[Timed]] = []
        for _ in range(IN_A_ROW):
            asked.append(pool.submit(timed, switch.active))
            comes(lambda: sum(one.done() for one in asked) + holds.served - before[0] == len(asked))
        got = holds.served - before[0], other.served - before[1]
        check(
            f"{name}: an endpoint that holds its requests has its share of them",
            got,
            (LIMIT, IN_A_ROW - LIMIT),
        )
        assert isinstance(holds.answer, Held)
        holds.answer.may_answer.set()


def ports_again() -> None:
    """A revision that has the ports of one that is scaled down has redispatch, `down` and share, as
    the first one had."""
    about = "the ports of a revision that is scaled down"
    first = Endpoint(Held(b"one"))
    second, third, fourth = (Endpoint(by_target(name)) for name in (b"two", b"three", b"four"))
    with serving_two(
        [first.port, second.port], (*REDISPATCH, "--endpoint-limit", str(LIMIT))
    ) as switch:
        carry_out(switch, f"deploy two {third.port} {fourth.port}", "available 2 2", "tick 1000")
        with contextlib.closing(switch.operator()) as operator:
            check(
                f"{about}: it is scaled down",
                operator.revisions()[0],
                "revision 1 one desired 0 available 0 open 0 deadline none",
            )
        carry_out(
            switch,
            f"deploy three {first.port} {second.port}",
            "available 3 2",
            f"down {first.port}",
        )
        check(f"{about}: one that is down gets no request", answers_of(switch), {OTHER})
        carry_out(switch, "down")
        check_share(about, switch, first, second)
        check(f"{about}: both get requests", answers_of(switch), {ONE, OTHER})
        first.stop()
        check(
            f"{about}: a request whose endpoint refuses it is dialled at the other one",
            answers_of(switch),
            {OTHER},
        )


def not_available() -> None:
    """An endpoint that is not available gets no request, however many the other one has, until a
    line `down` tells that it stands in for the other one."""
    name = "an endpoint that is not available"
    held = Held(b"one")
    first, second = Endpoint(held), Endpoint(by_target(b"two"))
    with serving_two([first.port, second.port], available=1) as switch:
        with concurrent.futures.ThreadPoolExecutor(CONCURRENCY) as pool:
            asked = [pool.submit(timed, switch.active) for _ in range(CONCURRENCY)]
            comes(lambda: first.served + second.served == CONCURRENCY)
            check(
                f"{name} gets no request by the share",
                (first.served, second.served),
                (CONCURRENCY, 0),
            )
            held.may_answer.set()
        check(f"{name}: the requests are answered", {one.result().answer for one in asked}, {ONE})
        carry_out(switch, f"down {second.port}")
        first.stop()
        check(
            f"{name} gets no request of one that refuses it",
            (answers_of(switch), second.served),
            ({BAD_GATEWAY}, 0),
        )
        carry_out(switch, f"down {first.port}")
        check(f"{name} stands in for one that is down", answers_of(switch), {OTHER})


SICK = (
    killed_first,
    killed_second,
    killed_both,
    stopped,
    silent_after_the_head,
    resets,
    slow,
    slots_stay,
    without_redispatch,
    port_of_two_revisions,
    logged,
    marked_is_asked_last,
    down,
    ports_again,
    not_available,
)

if __name__ == "__main__":
    checks.run(
        "live_endpoints",
        (
            silence,
            silences,
            silence_within_the_timeout,
            silence_past_the_timeout,
            connects_that_hang,
            connects_within_the_timeout,
            connects_in_time,
            timeout_begins_before_the_connect,
            own_ports,
            timeouts,
            *SICK,
        ),
        10,
        by_hand=(long_silence,),
    )
