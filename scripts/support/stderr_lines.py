"""What the program tells on standard error while its ports are open. The patterns stand here
alone."""
import re

from support.checks import check, comes
from support.switch import Switch

# Why, behind a notice, if the program tells it.
REASON = r"[^:]*(: .+)?"


def fewer_event_loops(port: str) -> re.Pattern[str]:
    """Of the event loops of a port fewer have begun than were ordered; the groups are both
    numbers."""
    return re.compile(rf"bg_switch: the {port} port has (\d+) of (\d+) event loops")


def no_event_loop(port: str) -> re.Pattern[str]:
    """No event loop of a port has begun."""
    return re.compile(rf"bg_switch: the {port} port has no event loop")


def accepts_fail(name: str, kind: str = "port") -> re.Pattern[str]:
    """Accepts fail at a port: `active`, `preview` or `control`; or at the control socket."""
    return re.compile(rf"bg_switch: accepts fail at the {name} {kind}{REASON}")


def used_up(port: str) -> re.Pattern[str]:
    """A port is closed since its connections are used up."""
    return re.compile(rf"bg_switch: the {port} port is closed: its connections are used up")


def nearly_full() -> re.Pattern[str]:
    """The history is nearly full; the groups are how many entries it holds, and the most that it
    can."""
    return re.compile(
        r"bg_switch: the history holds (\d+) of (\d+) entries; once it is full, requests and lines are refused"
    )


def full() -> re.Pattern[str]:
    """Lines and requests were refused since the history is full; the groups are how many of
    each."""
    return re.compile(
        r"bg_switch: the history is full; lines refused: (\d+), requests refused: (\d+)"
    )


def cut_off() -> re.Pattern[str]:
    """Responses were cut off after a part of them was forwarded; the group is how many."""
    return re.compile(
        r"bg_switch: responses that were cut off after a part of them was forwarded: (\d+)"
    )


def refused_connections() -> re.Pattern[str]:
    """Connections of users that aren't listed were turned away; the group is how many."""
    return re.compile(
        r"bg_switch: connections at the control port that are not of the users of BG_SWITCH_OPERATORS: (\d+)"
    )


def line_of_user() -> re.Pattern[str]:
    """An order was carried out; the groups are the number of its user, and the line."""
    return re.compile(r"bg_switch: user (\d+): (.+)")


def line_of_socket() -> re.Pattern[str]:
    """An order that came by the control socket was carried out; the group is the line."""
    return re.compile(r"bg_switch: control socket: (.+)")


def told(switch: Switch, pattern: re.Pattern[str]) -> list[re.Match[str]]:
    """The lines that a switch has told, and that match a pattern as a whole."""
    return [match for line in list(switch.told) if (match := pattern.fullmatch(line))]


def check_told_once(name: str, switch: Switch, pattern: re.Pattern[str]) -> None:
    """A check that a line of this pattern comes soon, and is the only one up to now."""
    comes(lambda: told(switch, pattern) != [])
    check(name, len(told(switch, pattern)) == 1 or switch.told, True)
