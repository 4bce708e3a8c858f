"""The session of docs/OPERATING.md, run from its own text; and whether each line of the log that it
names is one of the tools'."""
import re

from support import TOP, checks
from support.checks import check
from support.pages import run_session

PAGE = TOP / "docs" / "OPERATING.md"
TITLE = "From the start to the end"
PORTS = ("8080", "8081", "8082", "8180", "8181", "8182", "9101", "9102", "9201", "9202")
LEAST_BLOCKS = 8
# Parts of a line of the log that stand for what differs from line to line.
PLACES = re.compile(r"\bNAME\b|\bN\b|\bA\b|\bB\b|\bR\b|\.\.|\bLINE\b|\bREPLY\b|\bpre\b")

SWITCH_PLACES = re.compile(
    r"\bactive\b|\bN\b|\bM\b|\bP\b|\bPATH\b|\bWORD\b|\bFILE\b|\bLINE\b|\bNAME\b|\bADDRESS\b|\.\.|\b60\b|\b1000000\b"
    r"|\bBG_SWITCH_\w+|(?<=control )port\b|\) (?=can't be bound)"
)


def session() -> None:
    """The blocks print what the page says, one after the other in one shell."""
    run_session(PAGE.read_text(encoding="utf-8"), TITLE, PORTS).check(LEAST_BLOCKS)


def explained(title: str, places: re.Pattern[str]) -> set[str]:
    """The fixed parts of the lines that a section of the page explains."""
    section = PAGE.read_text(encoding="utf-8").split(f"\n## {title}\n")[1].split("\n## ")[0]
    spans = [
        span
        for cell in re.findall(r"^\| (`.*?) \| ", section, re.M)
        for span in re.findall(r"`([^`]+)`", cell)
    ]
    return {
        part.strip(" :,")
        for span in spans
        for part in places.split(span)
        if len(part.strip(" :,->=")) > 3
    }


def lines_of_the_log() -> None:
    """The fixed parts of each line that the page explains stand in the tools."""
    tools = "".join(
        path.read_text(encoding="utf-8") for path in (TOP / "lib" / "bg_switch_tools").rglob("*.py")
    )
    source = re.sub(r'"\s+f?"', "", tools)
    parts = explained("The log", PLACES)
    check(
        "parts of lines that no tool writes",
        sorted(part for part in parts if part not in source),
        [],
    )
    check("parts that were looked for", len(parts) > 40, True)


def lines_of_the_switch() -> None:
    """The same of the lines that the switch writes to standard error, most of them by bg_ports.
    Faults of a list of users are named in bg_peers."""
    source = "".join(
        path.read_text(encoding="utf-8")
        for crate in ("bg_switch", "bg_ports", "bg_peers")
        for path in (TOP / "crates" / crate / "src").glob("*.rt")
    )
    parts = explained("What the switch writes to standard error", SWITCH_PLACES)
    check(
        "parts of lines that the switch doesn't write",
        sorted(part for part in parts if part not in source),
        [],
    )
    check("parts of the switch's lines", len(parts) > 10, True)


if __name__ == "__main__":
    checks.run("live_operating", [session, lines_of_the_log, lines_of_the_switch])
