"""`bg_switch serve` on loopback: how long a request and a response may take, which
BG_SWITCH_PATIENCE_SECONDS sets, and requests that are given up since their revision drains for too
long."""
import concurrent.futures
import time

from support import checks, clients
from support.checks import check, check_soon, comes
from support.endpoints import Endpoint, in_pieces
from support.messages import BAD_GATEWAY, UNAVAILABLE, answer, request, response
from support.switch import TIMEOUT_VARIABLE, LaterEnd, opened

# A revision is due 5 seconds after it was left, and its requests are given up 10 seconds later.
DRAINS = """{"spec": {"strategy": {"blueGreen": {"activeService": "web", "scaleDownDelaySeconds": 5,
"drainLimitSeconds": 10}}}}"""
REQUEST, RESPONSE, ANSWER = request(), response(b"ok"), answer(b"ok")
# A response that goes on and on, a byte at a time.
ENDLESS = [b"HTTP/1.1 200 OK\r\nContent-Length: 1000\r\n\r\n", *[b"x"] * 1000]
# How long, in seconds, a message may take in these checks; and what ends at once. Messages that are
# whole in time take half of it at most, as far as the machine is free.
TIMEOUT = 8
SOON = 6
FOUR_LOOPS = ("--threads", "4")
# For how many seconds it is seen that requests aren't given up: longer than the turns of a second
# in which a silent endpoint is read.
SEEN = 2.5


def ends_in_time(seconds: float, later: LaterEnd) -> bool:
    """Whether `seconds` is about the timeout: it is less than those of a client with twice the
    timeout."""
    return TIMEOUT - 1 <= seconds and later.is_after(seconds)


def seven_slow_clients() -> None:
    """Seven clients that send a byte now and then, as many as requests may be served at a time, and
    a polite one."""
    switch, operator = opened(
        Endpoint(in_pieces([RESPONSE])).port, workers=7, count=2, timeout=TIMEOUT, flags=FOUR_LOOPS
    )
    check("all event loops have begun", switch.has_loops(4 + 1), True)
    endless = [b"GET / HTTP/1.1\r\n", b"A: ", *[b"a"] * 1000]
    switch.take(switch.active, 7)
    before, later = switch.count_descriptors(), LaterEnd(2 * TIMEOUT)
    with concurrent.futures.ThreadPoolExecutor(7) as pool:
        slow = [pool.submit(clients.dripped, switch.active, endless, 0.4) for _ in range(7)]
        check(
            "slow clients are connected",
            comes(lambda: switch.count_descriptors() == before + 7),
            True,
        )
        got, seconds = switch.timed(REQUEST)
        check(
            "a polite client beside seven slow ones", (got, later.is_after(seconds)), (ANSWER, True)
        )
        ends = [one.result() for one in slow]
    check("slow clients are answered nothing", [end.answer for end in ends], [b""] * 7)
    check(
        "slow clients are borne with for as long as a request may take",
        [ends_in_time(end.seconds, later) for end in ends],
        [True] * 7,
    )
    switch.check_end_after(operator, "the end after slow clients", 2)


def slow_requests() -> None:
    """A request that comes in pieces, and is whole in time; one that never begins."""
    switch, operator = opened(
        Endpoint(in_pieces([RESPONSE])).port, workers=2, count=2, timeout=TIMEOUT
    )
    pieces = [REQUEST[start : start + 4] for start in range(0, len(REQUEST), 4)]
    got, seconds = switch.timed(*pieces, pause=TIMEOUT / 2 / len(pieces))
    check("a request in pieces", (got, seconds >= TIMEOUT / 3), (ANSWER, True))
    later = LaterEnd(2 * TIMEOUT)
    got, seconds = switch.timed()
    check("a client that says nothing", (got, ends_in_time(seconds, later)), (b"", True))
    switch.check_end_after(operator, "the end after slow requests", 2)


def endless_response() -> None:
    """A response that never ends is given up in time."""
    switch, operator = opened(
        Endpoint(in_pieces(ENDLESS, 0.4)).port, workers=2, count=1, timeout=TIMEOUT
    )
    later = LaterEnd(2 * TIMEOUT)
    got, seconds = switch.timed(REQUEST)
    check("a response without end", (got, ends_in_time(seconds, later)), (BAD_GATEWAY, True))
    switch.check_end_after(operator, "the end after a response without end", 2)


def response_in_pieces() -> None:
    """A response that comes in pieces, and is whole in time, is carried."""
    pieces = [RESPONSE[:20], RESPONSE[20:40], RESPONSE[40:]]
    switch, operator = opened(Endpoint(in_pieces(pieces, 0.5)).port, count=1, timeout=TIMEOUT)
    check("a response in pieces", switch.timed(REQUEST).answer, ANSWER)
    switch.check_end_after(operator, "the end after a response in pieces", 2)


def given_up() -> None:
    """A download that goes on and on, and an endpoint that is silent, once their revision has
    drained for too long."""
    endpoint = Endpoint(in_pieces(ENDLESS, 0.1, silent_after=1))
    switch, operator = opened(endpoint.port, DRAINS, workers=3, count=2)
    with concurrent.futures.ThreadPoolExecutor(2) as pool:
        downloads = []
        for number in (1, 2):
            downloads.append(pool.submit(switch.timed, REQUEST))
            check(
                f"request {number} has reached its endpoint",
                comes(lambda: endpoint.served == len(downloads)),
                True,
            )
        for line, reply in (
            (f"deploy two {Endpoint(in_pieces([RESPONSE])).port}", "ok 0"),
            ("available 2 1", "ok 4"),
            ("tick 14", "ok 0"),
        ):
            check(f"{line.split()[0]} beside open requests", operator.answer_to(line), reply)
        time.sleep(SEEN)
        check(
            "downloads before the limit",
            ([one.done() for one in downloads], operator.revisions()[0]),
            ([False, False], "revision 1 one desired 1 available 1 open 2 deadline 5 draining"),
        )
        start = time.monotonic()
        check("the tick to the limit", operator.answer_to("tick 15"), "ok 0")
        check("a request beside those that are given up", switch.timed(REQUEST).answer, ANSWER)
        check(
            "downloads past the limit",
            [one.result().answer for one in downloads],
            [UNAVAILABLE] * 2,
        )
        check_soon("downloads past the limit", time.monotonic() - start, SOON)
    scaled_down = [
        "revision 1 one desired 0 available 0 open 0 deadline none",
        "revision 2 two desired 1 available 1 open 0 deadline none",
    ]
    check("their revision", comes(lambda: operator.revisions() == scaled_down), True)
    switch.check_end_after(operator, "the end after downloads that were given up", 6)


def timeouts_that_are_none() -> None:
    """What is no number from 1 to 3600 leaves the timeout as it is, and is told."""
    for text in ("0", "3601", "-1", "4s", ""):
        switch, operator = opened(Endpoint(in_pieces([RESPONSE])).port, count=1, timeout=text)
        check(
            f"a timeout of '{text}'",
            switch.timed(REQUEST[:9], REQUEST[9:], pause=0.6).answer,
            ANSWER,
        )
        switch.check_end_after(operator, "the end after it", 2)
        check(f"a timeout of '{text}' is told", switch.count_told(TIMEOUT_VARIABLE, "1 to 3600"), 1)


def greatest_and_least_timeout() -> None:
    """Of a number that can be used nothing is told."""
    for seconds in (1, 3600):
        switch, operator = opened(Endpoint(in_pieces([RESPONSE])).port, count=1, timeout=seconds)
        switch.check_end_after(operator, f"the end of a run with a timeout of {seconds}", 0)
        check(f"what is told of a timeout of {seconds}", switch.count_told(TIMEOUT_VARIABLE), 0)


if __name__ == "__main__":
    checks.run(
        "live_timeouts",
        [
            seven_slow_clients,
            slow_requests,
            endless_response,
            response_in_pieces,
            given_up,
            timeouts_that_are_none,
            greatest_and_least_timeout,
        ],
        at_once=7,
    )
