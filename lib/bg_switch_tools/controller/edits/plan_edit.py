"""Edits of a plan's file, which a controller that runs takes up. A deploy is such an edit."""
import contextlib
import json
import os
import stat
from collections.abc import Callable, Sequence

from bg_switch_tools.controller.edits.plan_edit_lock import EditLock
from bg_switch_tools.controller.history.kept_ports import by_name, kept_revisions, why_refused
from bg_switch_tools.controller.plan.plan import Plan, PlannedRevision
from bg_switch_tools.controller.plan.plan_file import OpenPlan, PlanEdit, plan_of, unreadable
from bg_switch_tools.controller.plan.plan_reader import MOST_REVISIONS, PlanError
from bg_switch_tools.controller.state.state_file import write_whole
from bg_switch_tools.switch.json_values import decoded


class OtherPortsError(PlanError):
    """An edit that gives a name other ports than it has."""


def judge_ports(path: str, plan: Plan, revision: PlannedRevision) -> None:
    """`OtherPortsError` if the name of the revision has other ports: by the history and the state,
    which an edit of the plan can't change, or else by the plan."""
    problem = why_refused(revision, {**by_name(plan.revisions), **kept_revisions(path)})
    if problem:
        raise OtherPortsError([problem])


def with_last(value: object, name: str, ports: Sequence[int]) -> object:
    """The value of a plan with this revision as its last one. One of this name is moved; if there
    are too many, the first one goes."""
    if not isinstance(value, dict) or not isinstance(value.get("revisions"), list):
        return value
    named = [one for one in value["revisions"] if isinstance(one, dict) and one.get("name") == name]
    others = [one for one in value["revisions"] if one not in named]
    last = {**(named[-1] if named else {}), "name": name, "ports": list(ports)}
    return {**value, "revisions": [*others[-(MOST_REVISIONS - 1) :], last]}


def _unsigned(_: PlanEdit) -> None:
    """An edit whose author is not noted."""


def _make_like(descriptor: int, before: os.stat_result) -> None:
    """Gives a file the mode of the one before, and its owner and group as far as the caller may."""
    try:
        os.fchown(descriptor, before.st_uid, before.st_gid)
    except PermissionError:
        with contextlib.suppress(PermissionError):
            os.fchown(descriptor, -1, before.st_gid)
    os.fchmod(descriptor, stat.S_IMODE(before.st_mode))


def _put_in_place(path: str, text: bytes) -> None:
    """Writes a file in one step, which keeps its mode and owner; if it is a link, the file that
    this leads to."""
    whole = os.path.realpath(path)
    before = os.stat(whole)
    fresh = os.open(f"{whole}.new", os.O_WRONLY | os.O_CREAT | os.O_TRUNC, 0o600)
    try:
        _make_like(fresh, before)
    finally:
        os.close(fresh)
    write_whole(whole, text)


def make_last(
    plan: OpenPlan, revision: PlannedRevision, sign: Callable[[PlanEdit], None] = _unsigned
) -> PlanEdit:
    """Makes a revision the last one of a plan's file, in one step. A file that names it last with
    these ports stays as it is. `sign` is given the edit before it is in place. `PlanError` if the
    result is not a plan, or the name has other ports (`OtherPortsError`), and `OSError` if the file
    can't be written, or another edit does not end: then nothing is changed."""
    with EditLock(plan.path):
        try:
            text = plan.latest()
        except OSError as error:
            raise unreadable(error) from None
        judge_ports(plan.path, plan_of(text), revision)
        if plan_of(text).last == revision:
            return PlanEdit(text, text)
        try:
            value = decoded(text)
        except ValueError:
            raise PlanError(
                [
                    "it is YAML, whose comments this edit would lose: name the revision in the file by hand"
                ]
            ) from None
        whole = with_last(value, revision.name, revision.ports)
        edit = PlanEdit(text, (json.dumps(whole, indent=2) + "\n").encode("ascii"))
        plan_of(edit.after)
        sign(edit)
        _put_in_place(plan.path, edit.after)
    return edit


def told_of(edit: PlanEdit, path: str, name: str) -> str:
    """What an edit has done, in a sentence."""
    return f"{name} is the last revision of {path}{'' if edit.has_changed else ' already'}"


def deploy_by_plan(
    path: str, name: str, ports: Sequence[int], sign: Callable[[PlanEdit], None] = _unsigned
) -> str:
    """Makes a revision the last one of a plan's file, as `make_last` does, and says so."""
    with contextlib.closing(OpenPlan(path)) as plan:
        return told_of(make_last(plan, PlannedRevision(name, tuple(ports)), sign), path, name)
