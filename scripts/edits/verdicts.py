"""What the prover says of a crate with an edit, and what follows for the edit."""
import re
from collections.abc import Sequence
from dataclasses import dataclass

from edits.functions import Function

# What a proof file says where it names what the edit took away: it says nothing of the contract.
LOST_NAME = re.compile(
    r"has no field|is not in scope|has no `|was not admitted|is not proved, which|has-holes"
)
PLACED = re.compile(r"(?:note: )?(?:\./)?([\w/.+]+\.(?:rt|antt)):(\d+):\d+: (.*)")
PROVED = "it is still proved"
REJECTED = re.compile(r"\berror\[[\w-]+\]")


@dataclass(frozen=True)
class Verdict:
    """Whether an edit is refused, and the prover's words that show it, or why it isn't."""

    is_refused: bool
    reason: str


def own_reason(lines: Sequence[str], function: Function) -> str:
    """Why the prover refuses this function; nothing where it is proved, or is not proved only since
    a callee is not."""
    states = [it for it in lines if re.match(rf"fn \S*\b{re.escape(function.name)}: ", it)]
    if len(states) != 1 or states[0].endswith(": proved"):
        return ""
    return _first_refusal(lines, [function])


def _first_refusal(lines: Sequence[str], functions: Sequence[Function]) -> str:
    """The first line that shows a refusal: a line of a text at which something is not proved, or an
    error in a proof file. It is one of these functions; if there are none, any. Nothing if no line
    does: a note on a proof that is admitted, or on a large term, is no refusal."""
    for line in lines:
        at = PLACED.match(line)
        if not at or LOST_NAME.search(line):
            continue
        file, place, said = at[1], int(at[2]), at[3]
        if "it is not proved that" in said:
            is_here = any(it.has_line(file, place) for it in functions)
        elif said.startswith("error"):
            is_here = any(it.has_proof(file) for it in functions)
        else:
            continue
        if is_here or not functions:
            return line[:200]
    return ""


def of_whole_crate(
    status: int, lines: Sequence[str], functions: Sequence[Function] = ()
) -> Verdict:
    """The verdict on an edit that was tried alone, by a check of the whole crate. The functions are
    those that it changes; none if it also changes what is outside of functions."""
    if status == 0:
        return Verdict(False, PROVED)
    rejected = next((it for it in lines if REJECTED.search(it)), "")
    if rejected or status != 1 or not lines[-1].startswith("logic=not-proved"):
        return Verdict(
            False, f"nothing is known of it: status {status}: {rejected or ' / '.join(lines[:3])}"
        )
    reason = _first_refusal(lines, functions)
    return Verdict(
        bool(reason),
        reason or "no place of what the edit changes is refused for its value",
    )
