"""`bg_switch serve` on loopback if something runs out: the connections of a port, the descriptors,
the threads."""
import concurrent.futures
import contextlib
import pathlib
import resource
import signal
import time

from support import checks, clients
from support.checks import check, check_within, comes
from support.endpoints import Endpoint, by_target, in_pieces
from support.messages import BAD_GATEWAY, BY_HAND, NO_PREVIEW, answer, request, response
from support.ports import is_open, is_refused
from support.processes import DescriptorLimit, pause
from support.switch import Switch, opened, serving

# The C library gives each thread a stack of the limit, and of this size there is none.
NO_STACK = 1 << 48
REQUEST, RESPONSE, ANSWER = request(), response(b"ok"), answer(b"ok")
# For how many seconds it is seen what a program doesn't do, or it can't accept: less than the
# second in which it tries again before an accept that fails counts.
SEEN = 0.3
# For how many seconds an idle switch is looked at.
IDLE = 5
FOUR_LOOPS = ("--threads", "4")


def connections_used_up() -> None:
    """A port of clients is closed once its connections are taken; the others, and the operators'
    side, go on."""
    switch, operator = opened(Endpoint(in_pieces([RESPONSE])).port, workers=2, count=2)
    for _ in range(3):
        check("an answer", switch.timed(REQUEST).answer, ANSWER)
    check("a port that has a connection left", is_open(switch.active), True)
    # the last connection, which is still being served as others come
    with switch.connect(switch.active) as last:
        last.sendall(REQUEST[:9])
        check("a port whose connections are used up", is_refused(switch.active), True)
        last.sendall(REQUEST[9:])
        check("the last connection", clients.received(last), ANSWER)
    check("the other port", is_open(switch.preview), True)
    check("the operators' side", operator.answer_to("tick 1"), "ok 0")
    for _ in range(2):
        switch.take(switch.preview)
        check("an answer at the preview port", clients.timed(switch.preview).answer, ANSWER)
    check("the preview port once its connections are used up", is_refused(switch.preview), True)
    check("the operators' side then", operator.answer_to("tick 2"), "ok 0")
    switch.check_end_after(operator, "the end of a run whose ports are closed", 12)


def a_client_too_many() -> None:
    """A client that was still waiting for an accept as the port is closed doesn't hang."""
    switch, operator = opened(Endpoint(in_pieces([b"", RESPONSE], 0.5)).port, count=2)
    with contextlib.ExitStack() as stack:
        pause(switch.process.pid)
        pending = [stack.enter_context(clients.connect(switch.active)) for _ in range(3)]
        switch.take(switch.active, 2)
        for client in pending:
            client.sendall(REQUEST)
        switch.process.send_signal(signal.SIGCONT)
        got = [clients.received(client) for client in pending]
    check("clients, one too many", got, [ANSWER, ANSWER, b""])
    switch.check_end_after(operator, "the end after a client too many", 4)


def check_no_dial(name: str, switch: Switch, limit: DescriptorLimit, before: int) -> None:
    """A check of a client that is connected when descriptors run out: its endpoint isn't reached.
    The program has `before` descriptors without clients."""
    check("no client is connected", comes(lambda: switch.count_descriptors() == before), True)
    with switch.connect(switch.active) as client:
        client.sendall(REQUEST[:9])
        check(
            "a client is connected", comes(lambda: switch.count_descriptors() == before + 1), True
        )
        limit.refuse()
        client.sendall(REQUEST[9:])
        check(name, clients.received(client), BAD_GATEWAY)


def without_descriptors() -> None:
    """No file descriptor is free: no endpoint is reached; an accept that fails is tried again for
    nearly a second, and counts as one of the connections after that."""
    switch, operator = opened(
        Endpoint(by_target(b"one")).port, NO_PREVIEW, count=8, preview=False, flags=FOUR_LOOPS
    )
    check("all event loops have begun", switch.has_loops(4), True)
    before = switch.count_descriptors()
    check("descriptors for all", switch.get(switch.active), (200, b"one"))
    limit = DescriptorLimit(switch.process.pid)
    check_no_dial("no descriptor for an endpoint", switch, limit, before)
    with concurrent.futures.ThreadPoolExecutor(1) as pool:
        pending = pool.submit(switch.get, switch.active)
        time.sleep(SEEN)
        limit.lift()
        check("an accept that is tried again", pending.result(), (200, b"one"))
    check_no_dial("no descriptor once more", switch, limit, before)
    start = time.monotonic()
    check("accepts that fail use the connections up", is_refused(switch.active), True)
    check("each was tried for a while", time.monotonic() - start > 1, True)
    limit.lift()
    switch.left.clear()
    switch.check_end_after(operator, "calls, with accepts that failed", 8)


def descriptors_of_operators() -> None:
    """As many idle operators and clients as may wait leave descriptors for the connections to
    endpoints."""
    most = 256
    with serving(
        Endpoint(by_target(b"one")).port, workers=2, descriptors=most
    ) as switch, contextlib.ExitStack() as stack:
        for port, count in (
            (switch.control, most // 4),
            (switch.active, most // 2),
            (switch.preview, most // 2),
        ):
            for _ in range(count):
                stack.enter_context(clients.connect(port))
        time.sleep(3)
        check(
            "a request beside idle operators and clients",
            clients.timed(switch.active).answer,
            answer(b"one"),
        )


def count_waits(process: int) -> int:
    """How often the threads of a process have waited."""
    tasks = pathlib.Path(f"/proc/{process}/task").glob("*/status")
    lines = [line for task in tasks for line in task.read_text(encoding="ascii").splitlines()]
    return sum(
        int(line.split()[1]) for line in lines if line.startswith("voluntary_ctxt_switches:")
    )


def idle_loops() -> None:
    """Idle event loops don't look for work: all threads of an idle switch together wait at most ten
    times a second."""
    with serving(Endpoint(by_target(b"one")).port, workers=7, flags=FOUR_LOOPS) as switch:
        check("an answer before", clients.timed(switch.active).answer, answer(b"one"))
        time.sleep(2)
        before, start = count_waits(switch.process.pid), time.monotonic()
        time.sleep(IDLE)
        grown, seconds = count_waits(switch.process.pid) - before, time.monotonic() - start
        check_within("waits of an idle switch in a second", grown / seconds, 10)
        check("an answer after it was idle", clients.timed(switch.active).answer, answer(b"one"))


def without_threads() -> None:
    """No thread can be had: the operator is answered up to `quit`, and then the event loops serve
    their clients in turn."""
    hard = resource.getrlimit(resource.RLIMIT_STACK)[1]
    if hard != resource.RLIM_INFINITY and hard < NO_STACK:
        print(
            "live_resources: the limit on stacks is fixed here, so a run without threads is passed over"
        )
        return
    limits = (NO_STACK, hard)
    switch = Switch(
        BY_HAND,
        workers=2,
        count=2,
        prepare=lambda: resource.setrlimit(resource.RLIMIT_STACK, limits),
    )
    operator = switch.operator()
    operator.check(f"open one {Endpoint(by_target(b'one')).port}", "ok 0")
    with concurrent.futures.ThreadPoolExecutor(6) as pool:
        gets = [
            pool.submit(switch.get, port)
            for port in (switch.active, switch.active, switch.preview) * 2
        ]
        time.sleep(SEEN)
        check("none is answered beside the operator", [get.done() for get in gets], [False] * 6)
        operator.check("available 1 1", "ok 0")
        operator.send_quit()
        check("each is answered after it", [get.result() for get in gets], [(200, b"one")] * 6)
    switch.check_end("calls, without threads", 12)
    operator.close()


if __name__ == "__main__":
    PARTS = [
        connections_used_up,
        a_client_too_many,
        without_descriptors,
        descriptors_of_operators,
        idle_loops,
        without_threads,
    ]
    checks.run("live_resources", PARTS, at_once=4)
