"""The words of `bench/beside_peers.py`."""
import argparse
import math
import pathlib
from collections.abc import Callable, Sequence

from support.peers.configurations import SWITCH, Mode
from support.peers.proxies import PEERS

PROXIES = (*PEERS, SWITCH)


def whole(word: str) -> int:
    """A number from 1 on."""
    if not word.isdecimal() or int(word) < 1:
        raise argparse.ArgumentTypeError(f"{word!r} is no whole number from 1 on")
    return int(word)


def wholes(word: str) -> list[int]:
    return sorted({whole(one) for one in word.split(",")})


def delays(word: str) -> list[float]:
    """Seconds, with commas between them."""
    try:
        found = sorted({float(one) for one in word.split(",")})
    except ValueError as error:
        raise argparse.ArgumentTypeError(str(error)) from error
    if not all(0 <= one < math.inf for one in found):
        raise argparse.ArgumentTypeError(f"{word!r} has a number of seconds that no delay has")
    return found


def names_of(known: Sequence[str]) -> Callable[[str], list[str]]:
    """A reader of some of these names, with commas between them."""

    def names(word: str) -> list[str]:
        asked = word.split(",")
        if unknown := set(asked) - set(known):
            raise argparse.ArgumentTypeError(f"{min(unknown)!r} is none of {', '.join(known)}")
        return [name for name in known if name in asked]

    return names


def asked_for(words: Sequence[str], documentation: str) -> argparse.Namespace:
    """What the words of the bench ask for. `SystemExit` with status 2 if they are wrong."""
    usage = documentation.split("usage: ")[1].split("\n\n")[0]
    parser = argparse.ArgumentParser(
        prog="beside_peers.py",
        usage=usage,
        formatter_class=argparse.ArgumentDefaultsHelpFormatter,
    )
    kinds = [mode.value for mode in Mode]
    add = parser.add_argument
    add("--rounds", type=whole, default=5, metavar="N", help="the medians of N rounds decide")
    add("--seconds", type=whole, default=3, metavar="S", help="how long a run takes")
    add("--connections", type=wholes, default="8,64,256,1024", metavar="N,..", help="clients")
    add("--delays", type=delays, default="0,0.1", metavar="S,..", help="of the endpoint")
    add("--concurrency", type=wholes, default="8,1023", metavar="N,..", help="of the switch")
    add("--threads", type=whole, default=2, metavar="N", help="threads or workers of each proxy")
    asked = "those that are measured"
    names = ",".join(PROXIES)
    add("--proxies", type=names_of(PROXIES), default=names, metavar="NAME,..", help=asked)
    add("--modes", type=names_of(kinds), default=",".join(kinds), metavar="MODE,..", help=asked)
    add("--out", type=pathlib.Path, metavar="FILE")
    add("--system-calls", action="store_true")
    add("--instructions", action="store_true")
    return parser.parse_args(words)
