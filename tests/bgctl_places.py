"""The places at which the table of bgctl's invocations runs each of them: a switch, a plan, and what is
the matter with them."""
import contextlib
import dataclasses
import json
import os
import pathlib
import re
import socket
from collections.abc import Callable, Iterator, Mapping
from unittest import mock

from bg_switch_tools.bgctl import cli as bgctl_cli
from bg_switch_tools.controller.history.attempts import (
    ABORTED,
    DEPLOYED,
    ENDED,
    LIVE,
    LOST,
    OPENED,
    STABLE,
    Event,
)
from bg_switch_tools.controller.history.history_file import HistoryFile
from bg_switch_tools.controller.plan.plan import PlannedRevision
from bg_switch_tools.controller.state.state_file import (
    HeldBack,
    State,
    StateFile,
    StateLock,
    write_whole,
)
from bg_switch_tools.operator import cli as operator_cli
from support.processes import Run
from tests.fake_port import ENDS, REPORT, FakePort, free_port
from tests.fake_journal import FakeJournal
from tests.fake_switch import QUESTIONS, FakeSwitch
from tests.tool_runs import run_in_process

MAINS = {"bgctl": bgctl_cli.main, "operator": operator_cli.main}
# what differs from run to run, and what stands for it
VARYING = (
    (re.compile(r"\d{4}-\d\d-\d\dT\d\d:\d\d:\d\d[+-]\d\d:\d\d"), "{time}"),
    (re.compile(r"process \d+"), "process {number}"),
    (re.compile(r"\bbefore \d{4,}"), "before {milliseconds}"),
)
STEADY = ("open web-v1 1 2", "available 1 2")
SCALING = (*STEADY, "deploy web-v2 3 4")
PAUSED = (*SCALING, "available 2 2")
V1, V2 = PlannedRevision("web-v1", (1, 2)), PlannedRevision("web-v2", (3, 4))


@dataclasses.dataclass
class Place:
    """Where an invocation runs: the values of its words in braces, the variables of its environment,
    and the lines that its switch was sent."""

    values: dict[str, str]
    variables: dict[str, str] = dataclasses.field(default_factory=dict)
    sent: Callable[[], list[str]] = list

    def filled(self, text: str) -> str:
        for name, value in self.values.items():
            text = text.replace(f"{{{name}}}", value)
        return text

    def masked(self, text: str) -> str:
        """A text that was printed, with names in the place of what differs from run to run."""
        for name, value in sorted(self.values.items(), key=lambda item: -len(item[1])):
            text = text.replace(value, f"{{{name}}}")
        for pattern, name in VARYING:
            text = pattern.sub(name, text)
        return f"{text}{{no line end}}\n" if text and not text.endswith("\n") else text

    def run(self, tool: str, words: list[str], lines: str) -> Run:
        run = run_in_process(
            MAINS[tool], *map(self.filled, words), lines=lines, COLUMNS="100", **self.variables
        )
        return Run(self.masked(run.printed), self.masked(run.told), run.status)


Making = Callable[[contextlib.ExitStack, str], Place]


def nothing(_: contextlib.ExitStack, folder: str) -> Place:
    """No switch, no plan, and no variable."""
    return Place({"free": str(free_port()), "folder": folder})


def switch_with(
    *lines: str, path: bool = False, has_journal: bool = False, unsaved: str = ""
) -> Making:
    """A switch that has carried these lines out, named by BG_CONTROL. With a journal, that fails
    then, and the switch carries out the line `unsaved` if there is one."""

    def make(stack: contextlib.ExitStack, folder: str) -> Place:
        place = nothing(stack, folder)
        journal = FakeJournal()
        switch = FakeSwitch(
            "pause",
            path=os.path.join(folder, "control") if path else "",
            journal=journal if has_journal else None,
        )
        stack.callback(switch.kill)
        for line in lines:
            switch.book.answer(line)
        journal.fails = True
        if unsaved:
            switch.book.answer(unsaved)
        place.values["control"] = switch.path or str(switch.port)
        place.variables["BG_CONTROL"] = place.values["control"]
        place.sent = switch.sent_lines
        return place

    return make


def dark(stack: contextlib.ExitStack, folder: str) -> Place:
    """No endpoint of web-v1, which is active, is available."""
    return switch_with(*STEADY, "available 1 0")(stack, folder)


def plan_text(control: object, *revisions: PlannedRevision, **members: object) -> str:
    told = [{"name": each.name, "ports": list(each.ports)} for each in revisions]
    return json.dumps({"control": control, "revisions": told, **members})


def by_plan(
    *lines: str,
    revisions: tuple[PlannedRevision, ...] = (V1,),
    state: State | None = State(stable=V1, deployed=V1, ports=(V1,)),
    runs: bool = True,
    events: tuple[Event, ...] = (),
    **members: object,
) -> Making:
    """A switch, and a plan that BG_PLAN names: its controller has this state and these events in its
    history, and runs."""

    def make(stack: contextlib.ExitStack, folder: str) -> Place:
        place = switch_with(*lines)(stack, folder)
        path = os.path.join(folder, "plan.json")
        write_whole(
            path, plan_text(int(place.variables.pop("BG_CONTROL")), *revisions, **members).encode()
        )
        if state is not None:
            StateFile(path).write(state)
        for event in events:
            HistoryFile(path).append(event)
        if runs:
            stack.callback(StateLock(path).release)
        place.values["plan"] = place.variables["BG_PLAN"] = path
        return place

    return make


def plan_of_text(text: str | None) -> Making:
    """A plan with this text, or none at its place, and no switch."""

    def make(stack: contextlib.ExitStack, folder: str) -> Place:
        place = nothing(stack, folder)
        place.values["plan"] = place.variables["BG_PLAN"] = os.path.join(folder, "plan.json")
        if text is None:
            os.mkdir(place.values["plan"])
        else:
            pathlib.Path(place.values["plan"]).write_text(text, encoding="ascii")
        return place

    return make


def port_that(answers: Callable[[str], list[str] | None]) -> Making:
    """A port at which something answers that is no switch for this user."""

    def make(stack: contextlib.ExitStack, folder: str) -> Place:
        place = nothing(stack, folder)
        port = FakePort(answers)
        stack.callback(port.close)
        place.values["control"] = place.variables["BG_CONTROL"] = str(port.port)
        place.sent = lambda: [line for line in port.lines if line not in QUESTIONS]
        return place

    return make


def silent(stack: contextlib.ExitStack, folder: str) -> Place:
    """A port that takes connections, and answers nothing."""
    place = nothing(stack, folder)
    listener = stack.enter_context(socket.create_server(("127.0.0.1", free_port())))
    place.values["control"] = place.variables["BG_CONTROL"] = str(listener.getsockname()[1])
    return place


def no_rights(stack: contextlib.ExitStack, folder: str) -> Place:
    """A control socket that this user may not open."""
    place = nothing(stack, folder)
    place.values["control"] = place.variables["BG_CONTROL"] = os.path.join(folder, "control")
    refused = PermissionError(13, "Permission denied")
    stack.enter_context(
        mock.patch("bg_switch_tools.switch.connection.connected", side_effect=refused)
    )
    return place


def full_folder(stack: contextlib.ExitStack, folder: str) -> Place:
    """A plan whose folder takes no file."""
    place = by_plan(*STEADY)(stack, folder)
    refused = OSError(28, "No space left on device")
    for function in ("edits.plan_edit.write_whole", "state.plan_author.write_whole"):
        stack.enter_context(
            mock.patch(f"bg_switch_tools.controller.{function}", side_effect=refused)
        )
    return place


def gone_after_report(line: str) -> list[str] | None:
    """The answers of a switch that ends the connection at each line but a report."""
    return [*REPORT] if line == "report" else ENDS


HELD = State(
    stable=V1,
    deployed=V1,
    ports=(V1,),
    held=(HeldBack(V2, "the switch has refused its deploy: refused BadPorts"),),
)
FAILING = State(
    stable=V1,
    deployed=V1,
    ports=(V1,),
    failing=(
        HeldBack(V2, "start of web-v2 at port 3 has failed, and is run again: exit status 1"),
    ),
)
EVENTS = (
    Event("2026-11-26T10:00:00+00:00", OPENED, "web-v1", 1, "plan", ports=(1, 2)),
    Event("2026-11-26T10:00:00+00:00", ENDED, "web-v1", 1, how=STABLE),
    Event("2026-11-26T10:00:00+00:00", LIVE, "web-v1", 1),
    Event("2026-11-26T10:01:00+00:00", DEPLOYED, "web-v2", 2, "alice", ports=(3, 4)),
    Event("2026-11-26T10:02:00+00:00", ENDED, "web-v2", 2, how=ABORTED),
    Event("2026-11-26T11:00:00+00:00", LOST),
)


def interrupted(stack: contextlib.ExitStack, folder: str) -> Place:
    """Somebody presses ctrl-C before the switch has answered."""
    place = switch_with(*STEADY)(stack, folder)
    stack.enter_context(
        mock.patch("bg_switch_tools.switch.connection.connected", side_effect=KeyboardInterrupt)
    )
    return place


PLACES: Mapping[str, Making] = {
    "nothing": nothing,
    "no book": switch_with(),
    "steady": switch_with(*STEADY),
    "socket": switch_with(*STEADY, path=True),
    "scaling": switch_with(*SCALING),
    "paused": switch_with(*PAUSED),
    "aborted": switch_with(*PAUSED, "abort"),
    "promoted": switch_with(*PAUSED, "promote"),
    "three revisions": switch_with(*PAUSED, "promote", "deploy web-v3 5 6", "available 3 2"),
    "journal fails": switch_with(*PAUSED, has_journal=True),
    "unsaved": switch_with(*PAUSED, has_journal=True, unsaved="promote"),
    "dark": dark,
    "plan": by_plan(*STEADY),
    "plan, no controller": by_plan(*STEADY, runs=False),
    "plan, never deployed": by_plan(*STEADY, state=None),
    "plan, paused": by_plan(
        *PAUSED, revisions=(V1, V2), state=State(stable=V1, deployed=V2, attempt=V2, ports=(V1, V2))
    ),
    "plan, promoted": by_plan(
        *PAUSED,
        "promote",
        revisions=(V1, V2),
        state=State(stable=V2, deployed=V2, ports=(V1, V2)),
    ),
    "plan, with a history": by_plan(*STEADY, events=EVENTS),
    "plan, undone": by_plan(
        *PAUSED,
        "deploy web-v1 1 2",
        revisions=(V1, V2),
        state=State(stable=V1, deployed=V2, ports=(V1, V2)),
    ),
    "plan, held back": by_plan(*STEADY, revisions=(V1, V2), state=HELD),
    "plan, start fails": by_plan(*STEADY, revisions=(V1, V2), state=FAILING),
    "plan, a program is missing": by_plan(*STEADY, start=["./nope.sh", "{revision}"]),
    "wrong plan": plan_of_text('{"control": 0, "revisions": []}'),
    "no JSON": plan_of_text("{"),
    "a folder for a plan": plan_of_text(None),
    "full folder": full_folder,
    "no rights": no_rights,
    "not allowed": port_that(lambda _: ["refused NotAllowed"]),
    "no switch": port_that(lambda _: ["HTTP/1.1 400 Bad Request"]),
    "silent": silent,
    "interrupted": interrupted,
    "gone": port_that(gone_after_report),
}


@contextlib.contextmanager
def at(name: str, folder: str) -> Iterator[Place]:
    """The place of this name, with its files in a folder that is empty. Who runs bgctl there is
    alice."""
    with contextlib.ExitStack() as stack:
        for module in ("plan_author", "pause"):
            place = f"bg_switch_tools.controller.state.{module}.login_name"
            stack.enter_context(mock.patch(place, return_value="alice"))
        yield PLACES[name](stack, folder)
