"""What the dashboard knows of a switch: its reports, its requests, and what has happened."""
import secrets
import time
from collections.abc import Mapping, Sequence
from typing import TypedDict

from bg_switch_tools.controller.state.analysis_results import AttemptResults
from bg_switch_tools.dashboard.alarms import alarms
from bg_switch_tools.dashboard.local_controller import ControllerView
from bg_switch_tools.dashboard.steps import SeenPhases, possible_commands, steps
from bg_switch_tools.dashboard.totals import Totals
from bg_switch_tools.dashboard.traffic import KEPT, SLOT, Traffic
from bg_switch_tools.switch.access_log import CLIENT_SERVICES, Batch, LogEntry
from bg_switch_tools.switch.control import Control
from bg_switch_tools.switch.lines import Line
from bg_switch_tools.switch.meanings import LACKS_ORDER
from bg_switch_tools.switch.replies import Reply
from bg_switch_tools.switch.report_changes import ChangeKind, changes_with_kinds, is_another_book
from bg_switch_tools.switch.report_text import NO_BOOK, WAITS_FOR, in_one_line
from bg_switch_tools.switch.reports import Report, as_json

MOST_HAPPENED, MOST_FAILED = 200, 50
# What the list of what has happened calls a change; any other is a `change`.
KIND_OF_CHANGE = {ChangeKind.ACTIVE_SWITCHED: "switch", ChangeKind.ABORTED: "abort"}
MOST_OF_A_BATCH = 20  # failed requests that one look adds
KEEPS_EACH_ORDER = "the journal of the switch keeps each order again"


class Happening(TypedDict):
    """Something that happened. `kind` is `switch`, `abort`, `change`, `order`, `alarm`, `silence`,
    `answer`, `controller`, `log` or `fault`; `mark` is the text of its mark in the charts, if it
    has one."""

    id: int
    time: float
    moment: int | None
    kind: str
    text: str
    mark: str


class Board:
    """Takes in what is read, and tells all of it, or what has changed since the time before."""

    def __init__(self, control: Control, log_path: str, is_read_only: bool, plan: str = "") -> None:
        """`plan` is the path of the plan of the switch's controller; empty if that is not looked
        at."""
        self.control = control
        self.log_path = log_path
        self.is_read_only = is_read_only
        self.plan = plan
        self.results_of = plan  # beside this path are the results of analyses; empty: not looked at
        self.results = AttemptResults()
        self.controller: ControllerView | None = None  # from the first look on, if there is a plan
        # by which a page notices that another dashboard has taken the place
        self.session = secrets.token_hex(8)
        self.report: Report | None = None
        self.earlier: Report | None = None  # of the same book, before the last one
        self.lacks_order = False  # whether the journal of the switch lacks an order
        self.has_asked = False  # whether the switch has answered before
        self.fault = "the switch has not been asked yet"
        self.since = time.time()  # when it began to answer, or not to
        self.log_fault = ""
        self.own_fault = ""  # what has ended the last look, if it was not expected
        self.own_faults = 0
        self.attempt = SeenPhases()
        self.names: dict[int, str] = {}  # of revisions, by their numbers in the book that is open
        self.traffic = Traffic()
        self.totals = Totals()
        self.happened: list[Happening] = []
        self.failed: list[dict[str, object]] = []  # requests
        self.next_id = 1
        self.told_up_to = 0

    def say(self, kind: str, text: str, mark: str = "") -> None:
        moment = self.report.moment if self.report else None
        self.happened.append(
            {
                "id": self.next_id,
                "time": round(time.time(), 3),
                "moment": moment,
                "kind": kind,
                "text": text,
                "mark": mark,
            }
        )
        del self.happened[:-MOST_HAPPENED]
        self.next_id += 1

    def take_report(self, report: Report | None, lacks_order: bool | None = None) -> None:
        """Takes in what the switch has answered: None if no book is open. `lacks_order` says whether
        an order was carried out that its journal does not keep; None: it has not told that."""
        if self.fault:
            self.say("answer", f"the switch answers: {in_one_line(report)}")
            self.fault, self.since = "", time.time()
        before, self.report = self.report, report
        is_another = before is not None and report is not None and is_another_book(before, report)
        self.earlier = None if is_another else before
        if report is None or is_another:
            self.names = {}
        if report is not None:
            self.names.update(
                {number: revision.name for number, revision in report.revisions.items()}
            )
            self.totals.begin(report)
            self.totals.take_changes(None if is_another else before, report)
            self.attempt.take(report)
        is_first, self.has_asked = not self.has_asked, True
        for change in changes_with_kinds(before, report) if not is_first else []:
            kind = KIND_OF_CHANGE.get(change.kind, "change")
            self.say(kind, change.text, self._mark(kind, report))
        self._say_alarms(None if is_another else before, report)
        if lacks_order is not None:
            self._take_journal(lacks_order)

    def _take_journal(self, lacks_order: bool) -> None:
        if lacks_order != self.lacks_order:
            kind, text = ("alarm", LACKS_ORDER) if lacks_order else ("answer", KEEPS_EACH_ORDER)
            self.say(kind, text)
        self.lacks_order = lacks_order

    def _say_alarms(self, before: Report | None, now: Report | None) -> None:
        """Says which alarms have come between two reports, and which have gone. A book that is new
        has no endpoint yet, which has no mark."""
        was, is_now = alarms(before), alarms(now)
        for alarm in is_now:
            if alarm not in was:
                self.say("alarm", alarm["text"], "" if before is None else "no endpoint")
        if was and not is_now and now is not None:
            active = now.service("active")
            self.say(
                "answer",
                f"an endpoint of {active.name} is up again: {active.available} of {active.desired}",
            )

    def take_controller(self, view: ControllerView) -> None:
        """Takes in what the controller tells of its plan."""
        before, faults = self.controller.faults() if self.controller else [], view.faults()
        for fault in faults:
            if fault not in before:
                self.say("controller", fault)
        if before and not faults:
            self.say("answer", "the controller runs, and holds nothing back")
        self.controller = view

    def take_fault(self, fault: str) -> bool:
        """Takes in what has ended a look, or with an empty text that none has. Gives whether that
        is new."""
        is_new = fault != self.own_fault
        if is_new and fault:
            self.say(
                "fault",
                f"the dashboard could not look at the switch: {fault}; some requests may not be counted",
            )
        elif is_new:
            self.say("answer", "the dashboard looks at the switch again")
        self.own_fault = fault
        self.own_faults += bool(fault)
        return is_new

    @staticmethod
    def _mark(kind: str, report: Report | None) -> str:
        if report is None or kind not in ("switch", "abort"):
            return ""
        return "abort" if kind == "abort" else f"to {report.service('active').name}"

    def take_silence(self, reason: str) -> None:
        """Takes in that the switch gives no answer."""
        if not self.fault:
            self.say("silence", f"the switch gives no answer: {reason}")
            self.since = time.time()
        self.fault = reason

    def take_batch(self, batch: Batch, fault: str, is_counted: bool = True) -> None:
        """Takes in what has come into the log. What stood there before the dashboard began is
        shown, and not counted."""
        selected = {
            service: self._selected(service) if is_counted else "" for service in CLIENT_SERVICES
        }
        for entry in batch.entries:
            revision = (
                selected[entry.service] if entry.is_without_endpoint else self.name(entry.revision)
            )
            self.traffic.add(entry, revision)
            if is_counted:
                self.totals.add(entry, revision)
        self._take_failed([entry for entry in batch.entries if entry.is_error], selected)
        if batch.lost:
            self.say("log", f"the switch could not write {batch.lost} lines of its log")
        self.totals.lost += batch.lost
        self.totals.unreadable += batch.unreadable
        if fault != self.log_fault:
            self.say(
                "log",
                f"the log {self.log_path} can't be read: {fault}"
                if fault
                else f"the log {self.log_path} is read",
            )
        self.log_fault = fault

    def _selected(self, service: str) -> str:
        """The name of the revision that a service has selected in the last two reports; empty if
        there is no such revision."""
        if (
            self.report is None
            or self.earlier is None
            or self.report.selected[service] != self.earlier.selected[service]
        ):
            return ""
        return self.report.service(service).name

    def _take_failed(self, entries: Sequence[LogEntry], selected: Mapping[str, str]) -> None:
        for entry in entries[-MOST_OF_A_BATCH:]:
            revision = (
                selected[entry.service] if entry.is_without_endpoint else self.name(entry.revision)
            )
            self.failed.append(
                {
                    "id": self.next_id,
                    "time": entry.time,
                    "service": entry.service,
                    "revision": revision,
                    "port": entry.port,
                    "method": entry.method,
                    "target": entry.target,
                    "status": entry.status,
                    "end": entry.end,
                    "reason": entry.reason,
                    "duration_ms": entry.duration_ms,
                }
            )
            self.next_id += 1
        del self.failed[:-MOST_FAILED]

    def name(self, number: int | None) -> str:
        """The name of a revision; empty if there is no revision."""
        return "" if number is None else self.names.get(number, f"revision-{number}")

    def note_line(self, line: Line, reply: Reply) -> None:
        self.say("order", f"{line} => {reply.with_meaning()}")

    def head(self) -> dict[str, object]:
        """All but what is told piece by piece."""
        now, report = time.time(), self.report
        return {
            "time": now,
            "session": self.session,
            "control": self.control,
            "read_only": self.is_read_only,
            "switch": {"answers": not self.fault, "fault": self.fault, "since": self.since},
            "alarms": alarms(report) if not self.fault else [],
            "journal": LACKS_ORDER if self.lacks_order and not self.fault else "",
            "fault": self.own_fault,
            "controller": self._told_controller(),
            "results": self.results.as_json() if self.results_of else None,
            "log": {
                "path": self.log_path,
                "fault": self.log_fault,
                "lost": self.totals.lost,
                "unreadable": self.totals.unreadable,
            },
            "report": as_json(report) if report else None,
            "steps": steps(report, self.attempt.phases, self.attempt.failed_at) if report else [],
            "waits_for": WAITS_FOR[report.phase] if report else NO_BOOK,
            "orders": {
                str(command): can and not self.fault and not self.is_read_only
                for command, can in possible_commands(report).items()
            },
            "recent": self.traffic.recent(now),
        }

    def _told_controller(self) -> dict[str, object] | None:
        if self.controller is None:
            return None
        return {
            "plan": self.plan,
            "life": self.controller.life.life.value,
            "held_back": [each.as_json() for each in self.controller.held],
            "faults": self.controller.faults(),
        }

    def state(self) -> dict[str, object]:
        """All that is known."""
        self.traffic.forget(time.time())
        return {
            **self.head(),
            "slot_seconds": SLOT,
            "kept_seconds": KEPT,
            "slots": self.traffic.slots_as_json(list(self.traffic.slots)),
            "happened": self.happened,
            "failed": self.failed,
        }

    def update(self) -> dict[str, object]:
        """What has changed since the time before."""
        self.traffic.forget(time.time())
        known, self.told_up_to = self.told_up_to, self.next_id - 1
        return {
            **self.head(),
            "slots": self.traffic.take_changed(),
            "happened": [each for each in self.happened if each["id"] > known],
            "failed": [
                each for each in self.failed if isinstance(each["id"], int) and each["id"] > known
            ],
        }
