#!/usr/bin/env python3
"""Whether servers read ambiguous requests alike, and whether all read alike what the switch forwards,
by hand.

usage: scripts/read_alike.py [--server NAME].. [--section NAME].. [--all] [--servers-only]
                             [--keep-alive]

Each message of the corpus (`scripts/support/smuggling`) goes to nginx, apache2, haproxy, lighttpd,
gunicorn and node, as far as they are installed, with one and with two plain requests behind it on
one connection. Where two of them read different requests, the script tells it: as a row for each
section, and as a line for each message of which they find different ends (`--all`: for each on
which they differ). Then each message goes to the built program, alone and with these requests
behind it. What the program writes to an endpoint goes to each server, as it was written, and with a
second request behind it (without the field `Connection: close`, so that the server looks for the
second one). Each server must read the same one request, and then the second one. Where docs/HTTP.md
says that a server differs about such requests, it may refuse the request, or read another target or
method, but not find another end. All else is told as FAILED. With `--keep-alive` the program keeps
connections, so the requests behind a message are forwarded, too, each as a text of its own.

Exit status: 0 if nothing has failed; 1 if a text of the switch is not read alike, or a refused
request was forwarded; 2 if the words are wrong, no server is installed, or the program is
not built.
"""
import argparse
import collections
import concurrent.futures
import contextlib
import signal
import sys
from collections.abc import Callable, Iterable, Sequence
from typing import TypeVar

from support.pace import slowness
from support.smuggling.comparing import SENTENCES, Compared, Kind, compared, readings_of, table_of
from support.smuggling.corpus import corpus
from support.smuggling.echo import Echo
from support.smuggling.forwarded import (
    Answered,
    Forwarded,
    Judged,
    Switch,
    Verdict,
    is_built,
    judged,
    streams_of,
    switch,
    worst_of,
)
from support.smuggling.messages import Message
from support.smuggling.readings import Reader, Reading
from support.smuggling.servers import KINDS, QUIET, missing, running, version_of

# How many connections of a server are open at once.
AT_ONCE = 12
Given = TypeVar("Given")
Made = TypeVar("Made")


def each_at_once(
    make: Callable[[Reader, int, Given], Made], readers: Sequence[Reader], given: Sequence[Given]
) -> list[list[Made]]:
    """What `make` gives for each of these, by its number, with each reader. Each reader has
    `AT_ONCE` connections at once."""
    pools = [concurrent.futures.ThreadPoolExecutor(AT_ONCE) for _ in readers]
    futures = [
        [pool.submit(make, reader, number, each) for number, each in enumerate(given)]
        for reader, pool in zip(readers, pools)
    ]
    made = [[one.result() for one in its] for its in futures]
    for pool in pools:
        pool.shutdown()
    return [list(row) for row in zip(*made)]


def compare_all(readers: Sequence[Reader], messages: Sequence[Message]) -> list[Compared]:
    """How far the readers differ about each message."""

    def make(reader: Reader, number: int, message: Message) -> list[Reading]:
        return readings_of(reader, message, number)

    told = []
    for message, rows in zip(messages, each_at_once(make, readers, messages)):
        connections = [
            {reader.name: readings[place] for reader, readings in zip(readers, rows)}
            for place in range(len(rows[0]))
        ]
        told.append(compared(message, connections))
    return told


def tell_compared(all_compared: Sequence[Compared], answers: dict[str, str], least: Kind) -> None:
    """Prints the table, and the messages about which readers differ so far or farther."""
    print("\n".join(table_of(all_compared)))
    for each in all_compared:
        if each.kind >= least:
            answer = answers.get(each.message.name)
            print(f"{SENTENCES[each.kind]}: {each}" + (f"; bg_switch: {answer}" if answer else ""))


def answers_of(one: Switch, messages: Sequence[Message]) -> dict[str, list[Answered]]:
    """What the switch makes of each message, alone and with requests behind it."""
    return {
        message.name: [one.answered(stream) for stream in streams_of(message, number)]
        for number, message in enumerate(messages)
    }


def texts_of(
    messages: Sequence[Message], answered: dict[str, list[Answered]], keeps: bool = False
) -> tuple[list[Forwarded], list[str]]:
    """The texts that the switch wrote, each once, and what is wrong with its answers. It keeps
    connections or does not."""
    texts, wrong = dict[bytes, Forwarded](), []
    for message in messages:
        for each in answered[message.name]:
            if each.texts and not each.is_answered(keeps):
                wrong.append(
                    f"{message.name}: answered {each.statuses}, and forwarded {each.texts}"
                )
            for text in each.texts:
                texts.setdefault(text, Forwarded(message, text))
    return list(texts.values()), wrong


def judge_all(readers: Sequence[Reader], texts: Sequence[Forwarded]) -> list[list[Judged]]:
    """How each reader reads each text of the switch."""

    def make(reader: Reader, number: int, text: Forwarded) -> Judged:
        return judged(text, reader, number)

    return each_at_once(make, readers, texts)


def tell_judged(rows: Iterable[Sequence[Judged]], tells_all: bool) -> collections.Counter[Verdict]:
    """Prints each text that has failed (and those for which the page documents a difference), and
    counts the texts by their worst verdict."""
    counts = collections.Counter[Verdict]()
    for row in rows:
        worst = worst_of(each.verdict for each in row)
        counts[worst] += 1
        if worst is Verdict.FAILED or tells_all and worst is Verdict.DOCUMENTED:
            message, text = row[0].forwarded
            why = "; ".join(dict.fromkeys(each.why for each in row if each.why))
            print(
                f"{worst.value}: {message.name} ({message.source}): {why}; bg_switch wrote {text!r}"
            )
    return counts


def play(readers: Sequence[Reader], messages: Sequence[Message], given: argparse.Namespace) -> bool:
    """Plays both parts. Whether nothing has failed."""
    answered = {}
    if not given.servers_only:
        with switch(flags=("--keep-alive",) if given.keep_alive else ()) as one:
            answered = answers_of(one, messages)
    answers = {name: str(its[0]) for name, its in answered.items()}
    all_compared = compare_all(readers, messages)
    tell_compared(all_compared, answers, Kind.STOPS if given.all else Kind.ENDS)
    kinds = collections.Counter(each.kind for each in all_compared)
    summary = ", ".join(f"{kinds[kind]} {sentence}" for kind, sentence in SENTENCES.items())
    print(f"read_alike: {len(messages)} messages, {len(readers)} servers: {summary}", flush=True)
    if given.servers_only:
        return True
    texts, wrong = texts_of(messages, answered, given.keep_alive)
    for line in wrong:
        print(f"{Verdict.FAILED.value}: {line}")
    counts = tell_judged(judge_all(readers, texts), given.all)
    statuses = ", ".join(
        f"{count} {answer}" for answer, count in collections.Counter(answers.values()).most_common()
    )
    print(f"read_alike: bg_switch: {statuses}")
    summary = ", ".join(f"{counts[verdict]} {verdict.value}" for verdict in Verdict)
    print(f"read_alike: {len(texts)} texts of bg_switch: {summary}; {len(wrong)} wrong answers")
    return not counts[Verdict.FAILED] and not wrong


def arguments() -> argparse.Namespace:
    parser = argparse.ArgumentParser(
        prog="read_alike.py", usage=(__doc__ or "").split("usage: ")[1].split("\n\n")[0]
    )
    parser.add_argument("--server", action="append", choices=list(KINDS))
    parser.add_argument("--section", action="append")
    parser.add_argument("--all", action="store_true")
    parser.add_argument("--servers-only", action="store_true")
    parser.add_argument("--keep-alive", action="store_true")
    given = parser.parse_args()
    sections = {message.section for message in corpus()}
    if unknown := set(given.section or ()) - sections:
        parser.error(
            f"there is no section {' '.join(sorted(unknown))}, but {' '.join(sorted(sections))}"
        )
    return given


def main() -> int:
    given = arguments()
    names = given.server or list(KINDS)
    absent = missing(names)
    for name in absent:
        print(f"read_alike: {name} is not installed: apt-get install {KINDS[name].package}")
    names = [name for name in names if name not in absent]
    if not names:
        return 2
    if not given.servers_only and not is_built():
        print("read_alike: the program is not built: make build", file=sys.stderr)
        return 2
    messages = [
        message for message in corpus() if not given.section or message.section in given.section
    ]
    print(f"read_alike: {', '.join(f'{name} {version_of(name)}' for name in names)}", flush=True)
    # the servers end with the script
    signal.signal(signal.SIGTERM, lambda *_: sys.exit(128 + signal.SIGTERM))
    endpoint, quiet = Echo().port, QUIET * slowness()
    with contextlib.ExitStack() as stack:
        readers = [stack.enter_context(running(name, endpoint, quiet)) for name in names]
        has_passed = play(readers, messages, given)
    return 0 if has_passed else 1


if __name__ == "__main__":
    sys.exit(main())
