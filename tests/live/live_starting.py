"""How `bg_switch serve` starts, and what it tells if it can't: faults of the strategy, ports that
are taken, the file of the control socket, and `quit` before a book is open."""
import contextlib
import os
import pathlib
import socket
import tempfile
from collections.abc import Iterator

from support import checks
from support.checks import check
from support.messages import NO_PREVIEW, ROLLOUT
from support.ports import HOST, free_port, free_ports
from support.switch import LISTENING, Switch, run_to_end

NO_JSON = "bg_switch: the strategy is no JSON: invalid JSON at line 2 column 1\n"
MISSPELT = 'bg_switch: blueGreen has "autoPromotionEnable", which is passed over: did you mean "autoPromotionEnabled"?'
# Why a control socket can't be bound.
NO_SOCKET, LISTENS = "there is a file that is no socket", "a process listens there"
NO_FILE = "No such file or directory (os error 2)"
IN_USE = "Address already in use (os error 98)"
TOO_LARGE = 1048577  # bytes of a strategy


@contextlib.contextmanager
def taken_port() -> Iterator[int]:
    """A port that is listened at already."""
    with socket.create_server((HOST, 0)) as listener:
        yield listener.getsockname()[1]


def quit_before_open() -> None:
    switch = Switch(NO_PREVIEW, count=1, preview=False)
    switch.left.clear()
    with contextlib.closing(switch.operator()) as operator:
        operator.send_quit()
        check("quit before open", switch.end(), ("", 0))


def faults_of_the_strategy() -> None:
    for rollout, fault in (
        ("[]", "fault WrongType document\n"),
        (" " * TOO_LARGE, "fault TooLarge\n"),
    ):
        switch = Switch(rollout, count=1, preview=False)
        switch.left.clear()
        check(fault, (switch.first, switch.end()), (fault, ("", 1)))
    check(
        "a strategy that is no JSON",
        run_to_end('{"spec":\n}', *free_ports(3)),
        ("fault NotJson\n", NO_JSON, 1),
    )


def ports_that_are_taken() -> None:
    """Each port by itself, and its reason."""
    with taken_port() as taken:
        run = run_to_end(NO_PREVIEW, taken, free_port())
        check("a port that is taken", (run.printed, run.status), ("fault Bind\n", 1))
        for place, word in enumerate(("active", "control", "preview")):
            ports = free_ports(3)
            ports[place] = taken
            reason = f"bg_switch: port {taken} of {HOST} (--{word}) can't be bound: {IN_USE}\n"
            check(
                f"the port of --{word} is taken",
                run_to_end(ROLLOUT, *ports),
                ("fault Bind\n", reason, 1),
            )


def misspelt_key() -> None:
    """A key that is misspelt is told even if a port is taken."""
    slip = ROLLOUT.replace('{"activeService"', '{"autoPromotionEnable": false, "activeService"')
    with taken_port() as taken:
        run = run_to_end(slip, taken, *free_ports(2))
    check(
        "a key that is misspelt",
        (run.printed, run.told.splitlines()[0], run.status),
        ("fault Bind\n", MISSPELT, 1),
    )


def no_place_for_lines() -> None:
    """A control port or a control socket has to be given."""
    run = run_to_end(ROLLOUT, free_port(), None)
    check(
        "neither a control port nor a control socket",
        ("--control <N>" in run.told and "not provided" in run.told, run.printed, run.status),
        (True, "", 2),
    )
    run = run_to_end(ROLLOUT, free_port(), None, flags=["--control-socket"])
    check("a control socket without a path", (run.printed, run.status), ("", 2))


@contextlib.contextmanager
def a_path() -> Iterator[str]:
    """The path of a control socket in a folder of its own."""
    with tempfile.TemporaryDirectory() as folder:
        yield f"{folder}/control"


def check_socket_refused(name: str, path: str, reason: str, *flags: str) -> None:
    """Checks that a control socket can't be bound, and what is told of it."""
    run = run_to_end(ROLLOUT, free_port(), None, flags=["--control-socket", path, *flags])
    told = f"bg_switch: socket {path} (--control-socket) can't be bound: {reason}\n"
    check(name, run, ("fault Bind\n", told, 1))


def control_sockets_that_are_refused() -> None:
    """What can't be a control socket, and what is left as it is then."""
    with a_path() as path:
        pathlib.Path(path).write_text("a file", encoding="ascii")
        check_socket_refused("a file that is no socket", path, NO_SOCKET)
        check("it is left", pathlib.Path(path).read_text(encoding="ascii"), "a file")
        os.unlink(path)
        os.symlink("nowhere", path)
        check_socket_refused("a link to a socket that is to be", path, NO_SOCKET)
        os.unlink(path)
        with socket.create_server(path, family=socket.AF_UNIX) as listener:
            check_socket_refused("a socket at which a process listens", path, LISTENS)
            with socket.socket(socket.AF_UNIX) as client:
                client.connect(path)
                listener.accept()[0].close()  # the connection by which the switch has seen it
                check("it is listened at still", listener.accept()[0].fileno() > 0, True)
        os.unlink(path)
        check_socket_refused("a folder that isn't there", f"{path}/x", NO_FILE)
        check_socket_refused(
            "a path that is too long", path + "x" * 108, "path must be shorter than SUN_LEN"
        )
        check_socket_refused("no mode", path, "668 is no mode", "--control-socket-mode", "668")
        check_socket_refused(
            "no group", path, "there is no group 0x0", "--control-socket-group", "0x0"
        )
        check("no file is left", os.path.exists(path), False)


def control_socket_left_behind() -> None:
    """The file of an earlier run is replaced, and the file is removed at the end, unless another one
    has taken its place."""
    with a_path() as path:
        socket.create_server(path, family=socket.AF_UNIX).close()
        switch = Switch(NO_PREVIEW, preview=False, path=path)
        check("a socket that was left behind is replaced", switch.first, LISTENING)
        check("it is listened at", switch.answer_to("report"), "refused NotOpen")
        switch.kill()
        check("the file of a switch that was killed is left", os.path.exists(path), True)
        for name, make in (("removed", None), ("left", socket.create_server)):
            switch = Switch(NO_PREVIEW, preview=False, path=path)
            check("its place is taken", switch.first, LISTENING)
            with contextlib.closing(switch.operator()) as operator, contextlib.ExitStack() as stack:
                if make is not None:
                    os.unlink(path)
                    stack.enter_context(make(path, family=socket.AF_UNIX))
                operator.send_quit()
                check("quit before open", switch.wait(), ("", 0))
            check(f"the file at the end is {name}", os.path.exists(path), name == "left")


if __name__ == "__main__":
    PARTS = [
        quit_before_open,
        faults_of_the_strategy,
        ports_that_are_taken,
        misspelt_key,
        no_place_for_lines,
        control_sockets_that_are_refused,
        control_socket_left_behind,
    ]
    checks.run("live_starting", PARTS, at_once=4)
