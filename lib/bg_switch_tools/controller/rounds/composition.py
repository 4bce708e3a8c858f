"""Puts a controller together: its parts are made here, and each is given those that it works
with."""
import os
from collections.abc import Callable
from typing import NamedTuple

from bg_switch_tools.controller.analyses.analysis_runner import AnalysisRunner
from bg_switch_tools.controller.endpoints.launcher import Launcher
from bg_switch_tools.controller.endpoints.probes import Probes
from bg_switch_tools.controller.history.history_recorder import HistoryRecorder
from bg_switch_tools.controller.history.memory import Memory
from bg_switch_tools.controller.lines.book import Book
from bg_switch_tools.controller.lines.held_back import HeldRevisions
from bg_switch_tools.controller.lines.line_source import MakeSource, SourceParts
from bg_switch_tools.controller.lines.plan_lines import PlanLines
from bg_switch_tools.controller.log import Log, OncePerRevision
from bg_switch_tools.controller.plan.plan import Plan
from bg_switch_tools.controller.rounds.availability import Availability
from bg_switch_tools.controller.rounds.book_opener import BookOpener
from bg_switch_tools.controller.rounds.controller import Controller
from bg_switch_tools.controller.rounds.notifier import Notifier
from bg_switch_tools.controller.rounds.progress import ProgressClock
from bg_switch_tools.controller.state.pause import Pause
from bg_switch_tools.switch.moments import Clock


class ControllerFiles(NamedTuple):
    """The path beside which a controller keeps its files, and the folder in which its commands
    run."""

    path: str
    folder: str


def files_beside(plan_path: str) -> ControllerFiles:
    """The files of a controller that has a plan of its own: all is beside the plan."""
    return ControllerFiles(plan_path, os.path.dirname(os.path.abspath(plan_path)))


class Makers(NamedTuple):
    """How the memory and the source of lines of a controller are made."""

    memory: Callable[[str, Plan, Log], Memory] = Memory
    source: MakeSource = PlanLines


def make_controller(
    files: ControllerFiles, plan: Plan, log: Log, probes: Probes, makers: Makers = Makers()
) -> Controller:
    """A controller with this plan. The notifier comes first, so that it is told what the other
    parts write into the log."""
    path, folder = files
    notifier = Notifier(folder, log, plan.commands)
    log.tell = notifier.take
    once, book = OncePerRevision(log), Book(log)
    memory = makers.memory(path, plan, log)
    pause = Pause(path, log)
    history = HistoryRecorder(path, log, memory.state.deployed, memory.results)
    availability = Availability(log, once, probes)
    analyses = AnalysisRunner(folder, log, once, memory, probes)
    launcher = Launcher(folder, log, memory, probes)
    held = HeldRevisions(log, memory)
    source = makers.source(SourceParts(log, memory, history, pause, launcher, held))
    return Controller(
        plan=plan,
        log=log,
        probes=probes,
        once=once,
        notifier=notifier,
        memory=memory,
        pause=pause,
        history=history,
        book=book,
        clock=Clock(),
        availability=availability,
        analyses=analyses,
        launcher=launcher,
        held=held,
        source=source,
        opening=BookOpener(log, memory, book, availability, source),
        progress=ProgressClock(),
    )
