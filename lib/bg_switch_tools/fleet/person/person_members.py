"""The members of a fleet, as a person lists, adds and removes them. A member has a vote, so each
attempt waits for it."""
from collections.abc import Sequence

from bg_switch_tools.fleet.person.person import Person, RefusedError, tell
from bg_switch_tools.fleet.record.record import ATTEMPT, MEMBERS, PLAN, Record, View
from bg_switch_tools.fleet.record.status_text import attempt_title, plain
from bg_switch_tools.fleet.store.store import Compare

# etcd takes at most 128 compares in a transaction, and the leader's compares the report of each
# member.
MOST_MEMBERS = 100
TRIES = 5  # until it is refused, if others change the members at the same time
CHANGING = "others change the fleet at the same time; nothing was changed"


def members_of(person: Person) -> list[str]:
    """The hosts of the members, in the order of their names."""
    return [plain(host) for host in View(person.store.read()).members]


def _running(view: View) -> Record | None:
    """The record of an attempt that runs, or that a plan is about to begin; None if there is no
    such attempt."""
    record = view.record
    return record if record and (record.is_running or record.id != view.changed(PLAN)) else None


def add(person: Person, hosts: Sequence[str]) -> list[str]:
    """Adds members, and says so of each; one that is a member already stays as it is.
    `RefusedError` if there would be too many."""
    for _ in range(TRIES):
        view = View(person.store.read())
        new = [host for host in dict.fromkeys(hosts) if host not in view.members]
        count = len(view.members) + len(new)
        if count > MOST_MEMBERS:
            raise RefusedError(
                f"nothing was changed: a fleet has at most {MOST_MEMBERS} members, and these would be {count}"
            )
        # no other one was added since the read
        compares = [
            Compare(MEMBERS, "changed", view.snapshot.revision),
            *(Compare(MEMBERS + host, "changed", 0) for host in new),
        ]
        if (
            not new
            or person.store.write(compares, {MEMBERS + host: "" for host in new}) is not None
        ):
            _tell_added(view, new)
            return [
                f"{host} is a member" + ("" if host in new else " already")
                for host in dict.fromkeys(hosts)
            ]
    raise RefusedError(CHANGING)


def _tell_added(view: View, new: Sequence[str]) -> None:
    """Tells which new members are away, and which attempt counts them."""
    record = view.record
    for host in new:
        if view.machine(host) is None:
            tell(f"{host} is away: no agent reports as {host} yet")
    if new and record and record.is_running:
        tell(f"{attempt_title(record)} is {record.stage}, and counts {', '.join(new)} too")


def _removal_fault(view: View, hosts: Sequence[str]) -> str:
    """Why these hosts can't be removed; empty if they can."""
    unknown = [host for host in hosts if host not in view.members]
    if unknown:
        return f"nothing was changed: no member is called {', '.join(unknown)}; the members are {', '.join(view.members) or 'none'}"
    record = _running(view)
    if record and set(hosts) >= set(view.members):
        what = attempt_title(record) if record.is_running else f"plan {view.changed(PLAN)}"
        return f"nothing was changed: no member would be left for {what}, which is not over"
    return ""


def _compares(view: View, hosts: Sequence[str]) -> list[Compare]:
    """What a removal rests on: the members themselves, one that stays, and without such a one that
    no attempt runs."""
    staying = [host for host in view.members if host not in hosts][:1]
    rests_on = [MEMBERS + staying[0]] if staying else [ATTEMPT, PLAN]
    return [
        Compare(name, "changed", view.changed(name))
        for name in (*rests_on, *(MEMBERS + host for host in hosts))
    ]


def remove(person: Person, hosts: Sequence[str]) -> list[str]:
    """Removes members, and says so of each. `RefusedError`, also for all of them, if one is not a
    member, or if an attempt runs and no member would be left."""
    hosts = list(dict.fromkeys(hosts))
    for _ in range(TRIES):
        view = View(person.store.read())
        if fault := _removal_fault(view, hosts):
            raise RefusedError(fault)
        person.agree(f"remove {', '.join(hosts)} of {len(view.members)} members?")
        if (
            person.store.write(_compares(view, hosts), {}, [MEMBERS + host for host in hosts])
            is not None
        ):
            return [f"{host} is no member any more" for host in hosts]
    raise RefusedError(CHANGING)
