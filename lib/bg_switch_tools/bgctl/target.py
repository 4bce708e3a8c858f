"""Finds the plan, and the control port or socket, that a run of bgctl is about."""
import argparse
import os
from typing import Any

from bg_switch_tools.controller.plan.plan import Plan
from bg_switch_tools.controller.plan.plan_file import OpenPlan, plan_of, unreadable
from bg_switch_tools.controller.plan.plan_reader import PlanError
from bg_switch_tools.switch.arguments import control_of
from bg_switch_tools.switch.control import Control

# variables of the environment; one that is empty counts as not set
CONTROL, PLAN = ("BG_CONTROL", "BG_PLAN")

BEFORE = "before_"  # begins the names of the options that stand before the command


class TargetError(Exception):
    """The run can't find what it needs. The text says why."""


def _option(options: argparse.Namespace, name: str) -> Any:
    """The value of an option after the command, or else of the one before it; None if neither place
    has it."""
    value = getattr(options, name, None)
    return getattr(options, BEFORE + name, None) if value is None else value


class Target:
    """The plan, and the control port or socket. A port or socket that nothing else names is the
    plan's. The plan is read once."""

    def __init__(self, control: Control | None, path: str | None) -> None:
        self.given_control = control
        self.path = path
        self.file = OpenPlan(path or "")

    def close(self) -> None:
        """Closes the file of the plan."""
        self.file.close()

    def take_path(self, path: str | None) -> None:
        """Takes a plan that stands after the command, in the place of the one that it had."""
        if path:
            self.path, self.file = path, OpenPlan(path)

    def needed_path(self, why: str) -> str:
        """The path of the plan, whose file can be read. `TargetError` if none is named (then `why`
        says what it is for)."""
        if self.path is None:
            raise TargetError(f"{why}: --plan FILE or the variable {PLAN} names the plan")
        try:
            self.file.text()
        except OSError as error:
            raise TargetError(f"the plan {self.path} can't be read: {error.strerror}") from None
        return self.path

    def plan(self) -> Plan | None:
        """The plan; None if no plan is named. `TargetError` if it is wrong, or can't be read."""
        try:
            return self._plan()
        except PlanError as wrong:
            raise TargetError(f"{self.path} is not a plan: {wrong}") from None

    def plan_if_right(self) -> Plan | None:
        """The plan; None if no plan is named, or it is wrong."""
        try:
            return self._plan()
        except PlanError:
            return None

    def _plan(self) -> Plan | None:
        try:
            return None if self.path is None else plan_of(self.file.text())
        except OSError as error:
            raise unreadable(error) from None

    def known_control(self) -> Control | None:
        """The control port or socket; None if nothing names it. `TargetError` if what names it is
        wrong."""
        # a plan that is named and wrong is told, even if its port is not needed
        plan = self.plan()
        if self.given_control is not None:
            return self.given_control
        if control_text := os.environ.get(CONTROL):
            try:
                return control_of(control_text)
            except argparse.ArgumentTypeError as error:
                raise TargetError(f"{CONTROL}: {error}") from None
        return plan.control if plan else None

    def control(self) -> Control:
        """The control port or socket. `TargetError` if nothing names it."""
        control = self.known_control()
        if control is None:
            raise TargetError(
                f"the control port is not known: --control PORT names it, or the variable {CONTROL}, or a plan "
                f"(--plan FILE, {PLAN})"
            )
        return control


class GivenTarget(Target):
    """The control port or socket that stands first among the words. A plan that is named besides is
    judged only by the commands that go by it."""

    def known_control(self) -> Control | None:
        return self.given_control


def target_of(options: argparse.Namespace) -> Target:
    """What the options of bgctl name, or else its variables."""
    return Target(
        _option(options, "control"), _option(options, "plan") or os.environ.get(PLAN) or None
    )
