"""The commands of bin/fleet, each declared once: its name, what it does, its words, and the function
that carries it out."""
import argparse
import dataclasses
import json
import pathlib
from collections.abc import Callable
from typing import NamedTuple

from bg_switch_tools.controller.state.plan_author import login_name
from bg_switch_tools.fleet.arguments import (
    add_agent,
    add_json,
    add_members,
    add_order,
    add_plan,
    add_plan_file,
    add_undo,
    add_wait,
    add_yes,
)
from bg_switch_tools.fleet.exit_statuses import DONE, REFUSED
from bg_switch_tools.fleet.person import person_members, person_orders, person_plans
from bg_switch_tools.fleet.person.conditions import Conditions, FleetConditions, OrderIsCarriedOut
from bg_switch_tools.fleet.person.person import Person, tell
from bg_switch_tools.fleet.person.wait import wait_for
from bg_switch_tools.fleet.person.watch import watch
from bg_switch_tools.fleet.plan.fleet_file import FleetFile
from bg_switch_tools.fleet.record.record import ABORTED
from bg_switch_tools.fleet.record.status import status_of
from bg_switch_tools.fleet.record.status_text import draw, in_one_line
from bg_switch_tools.fleet.store.store import Snapshot, Store, StoreError
from bg_switch_tools.switch.conditions import wrong_condition


StoreOf = Callable[[FleetFile], Store]


class Changes:
    """Tells a text if it is another one than the one before."""

    def __init__(self) -> None:
        self.before = ""

    def tell(self, text: str) -> None:
        if text != self.before:
            tell(text)
        self.before = text


class FleetRun:
    """A run of one command."""

    def __init__(self, options: argparse.Namespace, file: FleetFile, store_of: StoreOf) -> None:
        self.options = options
        self.file = file
        self.store_of = store_of

    def person(self) -> Person:
        return Person(
            login_name(),
            self.store_of(self.file),
            self.file.fleet,
            getattr(self.options, "yes", False),
        )

    def agent(self) -> int:
        # here, since no other command needs its parts
        from bg_switch_tools.fleet.agent.agent_process import AgentArguments, run_agent

        arguments = AgentArguments(
            None if self.options.state is None else pathlib.Path(self.options.state),
            as_json=self.options.json,
        )
        if self.options.round is not None:
            arguments = dataclasses.replace(arguments, round_seconds=self.options.round)
        return run_agent(self.file, arguments)

    def status(self) -> int:
        person = self.person()
        status = status_of(person.fleet, person.store.read())
        print(json.dumps(status.as_json()) if self.options.json else "\n".join(draw(status)))
        return REFUSED if status.record is None or status.record.stage == ABORTED else DONE

    def watch(self) -> int:
        try:
            watch(self.person())
        except KeyboardInterrupt:
            print()
        return DONE

    def check(self) -> int:
        print(person_plans.check(self.options.plan, self.file))
        return DONE

    def plan(self) -> int:
        print(person_plans.put_plan(self.person(), self.options.plan, self.file))
        return DONE

    def order(self) -> int:
        """Puts an order. With `--wait` the end of its attempt is awaited, and told."""
        person, order = self.person(), self.options.command
        ordered = person_orders.give_order(person, order, self.options.attempt)
        print(ordered.sentence, flush=True)
        if not self.options.wait:
            return DONE
        return self._await(person, OrderIsCarriedOut(order, ordered.attempt), False)

    def retry(self) -> int:
        print(person_plans.retry(self.person()))
        return DONE

    def undo(self) -> int:
        print(person_plans.undo(self.person(), self.options.to))
        return DONE

    def members(self) -> int:
        person = self.person()
        if self.options.step in (None, "list"):
            lines = person_members.members_of(person)
        else:
            change = person_members.add if self.options.step == "add" else person_members.remove
            lines = change(person, self.options.hosts)
        if lines:
            print("\n".join(lines))
        return DONE

    def wait(self) -> int:
        return self._await(
            self.person(), FleetConditions(self.options.conditions), self.options.json
        )

    def _await(self, person: Person, conditions: Conditions, as_json: bool) -> int:
        """Waits. Each change meanwhile, and a store that gives no answer, is told on standard
        error."""
        changes = Changes()

        def see(snapshot: Snapshot) -> None:
            changes.tell(in_one_line(status_of(person.fleet, snapshot)))

        def lose(fault: StoreError) -> None:
            changes.tell(str(fault))

        result = wait_for(person.store, conditions, self.options.timeout, see, lose)
        status = status_of(person.fleet, result.snapshot) if result.snapshot else None
        if as_json:
            print(
                json.dumps(
                    {
                        "status": result.status,
                        "reason": result.reason or None,
                        "fleet": status.as_json() if status else None,
                    }
                )
            )
        elif status and result.status == DONE:
            print(in_one_line(status))
        if result.reason:
            tell(result.reason)
        return result.status


def add_none(_: argparse.ArgumentParser) -> None:
    """A command without words of its own."""


def no_fault(_: argparse.Namespace) -> str:
    """Nothing is wrong with words that are each right."""
    return ""


class FleetCommand(NamedTuple):
    """A command. `more` is told by its help alone. `fault` says what is wrong with words that are each
    right."""

    name: str
    meaning: str
    run: Callable[[FleetRun], int]
    add_words: Callable[[argparse.ArgumentParser], None]
    more: str = ""
    fault: Callable[[argparse.Namespace], str] = no_fault


FLEET_COMMANDS = (
    FleetCommand(
        "agent",
        "runs the agent of this machine, until SIGTERM or ctrl-C",
        FleetRun.agent,
        add_agent,
        "It sends the lines to the switch that the record of the fleet asks for, reports to the fleet, and may lead it.",
    ),
    FleetCommand(
        "status", "shows the attempt, its members, and what is awaited", FleetRun.status, add_json
    ),
    FleetCommand(
        "watch",
        "draws the status, and again at each change, until ctrl-C",
        FleetRun.watch,
        add_none,
    ),
    FleetCommand("check", "judges a plan alone, without etcd", FleetRun.check, add_plan_file),
    FleetCommand(
        "plan",
        "puts a plan, whose last revision is then deployed",
        FleetRun.plan,
        add_plan,
        "The plan is compared with the one that stands: a revision keeps its ports and its number of replicas. A plan that "
        "says the same as the one that stands changes nothing.",
    ),
    FleetCommand(
        "promote",
        "orders the promotion of an attempt whose members are all ready",
        FleetRun.order,
        add_order,
        "It ends the pause of a plan with fleet.by_hand, and skips the rest of fleet.seconds.",
    ),
    FleetCommand(
        "abort",
        "orders the abort of an attempt that runs: all machines go back",
        FleetRun.order,
        add_order,
        "It may take the place of a promote that no leader has answered yet.",
    ),
    FleetCommand("retry", "begins an attempt again that was aborted", FleetRun.retry, add_yes),
    FleetCommand(
        "undo",
        "deploys the revision again that was stable before the newest one",
        FleetRun.undo,
        add_undo,
    ),
    FleetCommand(
        "members",
        "lists the members, adds some, or removes some",
        FleetRun.members,
        add_members,
        "A member has a vote: each attempt waits for it. To add one that is a member already changes nothing; to remove one that is "
        "none is refused.",
    ),
    FleetCommand(
        "wait",
        "waits until conditions hold",
        FleetRun.wait,
        add_wait,
        fault=wrong_condition(FleetConditions),
    ),
)
FLEET_COMMAND_NAMES = tuple(command.name for command in FLEET_COMMANDS)
