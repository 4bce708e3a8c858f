#!/usr/bin/env python3
"""Whether real clients and proxies keep their connections to the switch rightly, by hand.

usage: scripts/keep_alive_clients.py [--only NAME]..     all of them without words

curl, wget, node (http.Agent with keepAlive), Python's http.client, chromium, ab -k, wrk, siege, and
HAProxy and nginx in front, each make several requests of `serve --keep-alive`: once with the usual
number of requests of a connection, and once with three at most. Each request has to be answered 200
with the bytes of its endpoint, as the client itself has them or counts them, and the access log has
to have a line for each. It tells whether connections were kept: some `connection_request` is above 1,
and none above the most. ab speaks version 1.0, whose connections the switch does not keep (RFC 9112
section 9.3): each of them has to carry one request. siege has no second round: version 4.0.7 sends on
after an answer that says `Connection: close`, and counts a failure, before nginx as well.

Exit status: 0 if nothing has failed; 1 if something has, or a client is not installed; 2 if the words
are wrong. BG_SWITCH_PROGRAM names another program than bin/bg_switch.
"""
import argparse
import collections
import contextlib
import http.client
import json
import pathlib
import re
import shutil
import socket
import subprocess
import sys
import tempfile
from collections.abc import Callable, Iterator, Sequence
from typing import NamedTuple

from support import checks, processes
from support.checks import check, comes
from support.endpoints import Request
from support.kept import KeptEndpoint
from support.messages import NO_PREVIEW
from support.peers.configurations import Mode, Place
from support.peers.proxies import peer
from support.ports import HOST, connections_at, free_port
from support.switch import LISTENING, Switch
from support.traffic import ACCESS_LOG

# isort: split; `support` tells where the tools' package is
from bg_switch_tools.switch.access_log import LogEntry, read_lines

COUNT = 12  # requests of a client, at least
FEW = 3  # the most requests of a connection in the second round
LONGEST = 120.0  # seconds for a client
SCRIPTS = 20  # of the page that chromium loads
LARGE = 200_000
MEGABYTE = 1 << 20
ROUNDED = 0.011  # megabytes by which siege may be off
ROUNDS: tuple[tuple[str, ...], ...] = ((), ("--keep-alive-requests", str(FEW)))

NODE = """
const http = require('http');
const agent = new http.Agent({keepAlive: true, maxSockets: 1});
const ask = (path) => new Promise((done, fail) => http.get(
    {host: '127.0.0.1', port: Number(process.argv[2]), path, agent}, (answer) => {
        const pieces = [];
        answer.on('data', (piece) => pieces.push(piece));
        answer.on('end', () => done([answer.statusCode, Buffer.concat(pieces).toString('latin1')]));
        answer.on('error', fail);
    }).on('error', fail));
(async () => {
    const found = [];
    for (const path of process.argv.slice(3)) found.push(await ask(path));
    console.log(JSON.stringify(found));
    agent.destroy();
})();
"""
WRK = """
wrong, right = 0, 0
function setup(thread) threads = threads or {}; table.insert(threads, thread) end
function response(status, headers, body)
    if status == 200 and #body == EXPECTED then right = right + 1 else wrong = wrong + 1 end
end
function done(summary)
    local bad, good = 0, 0
    for _, thread in ipairs(threads) do bad = bad + thread:get('wrong'); good = good + thread:get('right') end
    local e = summary.errors
    print('counted', good, bad, e.connect + e.read + e.write + e.status + e.timeout)
end
"""


def content_of(target: bytes) -> bytes:
    """The body that the endpoint has for a target: it differs from that of each other target."""
    if target.endswith(b".html"):
        folder = target.rpartition(b"/")[0]
        scripts = (b'<script src="%s/%d.js"></script>' % (folder, n) for n in range(SCRIPTS))
        return b"<!DOCTYPE html><title></title><body>%s</body>" % b"".join(scripts)
    if target.endswith(b".js"):
        return b"document.title += ' %s';" % target.rpartition(b"/")[2]
    if target.endswith(b".large"):
        return (target * (LARGE // len(target) + 1))[:LARGE]
    return b"this is " + target


KINDS = {b".html": b"text/html", b".js": b"text/javascript"}


class Contents(KeptEndpoint):
    """An endpoint that gives a content for each target."""

    def answer_by_target(self, asked_for: Request, connection: socket.socket) -> None:
        body = content_of(asked_for.target) + asked_for.body
        kind = KINDS.get(b"." + asked_for.target.rpartition(b".")[2], b"text/plain")
        head = b"HTTP/1.1 200 OK\r\nContent-Type: %s\r\nContent-Length: %d\r\n\r\n"
        connection.sendall(head % (kind, len(body)) + body)


class Visit(NamedTuple):
    """What a client makes its requests of: its name, the active port, and a folder for its
    files."""

    name: str
    port: int
    folder: pathlib.Path

    @property
    def targets(self) -> list[str]:
        """Those of its requests, some of which have a large answer."""
        names = (f"{number}{'.large' if number % 5 == 3 else ''}" for number in range(COUNT))
        return [f"/{self.name}/{name}" for name in names]

    def address(self, target: str) -> str:
        return f"http://{HOST}:{self.port}{target}"

    def contents(self) -> list[bytes]:
        return [content_of(target.encode()) for target in self.targets]

    def write(self, name: str, text: str) -> str:
        path = self.folder / name
        path.write_text(text, encoding="utf-8")
        return str(path)

    def run(self, *words: str) -> str:
        """What a program prints that succeeds."""
        run = processes.run_to_end(words, longest=LONGEST)
        if run.status:
            checks.fail(self.name, f"the status {run.status}: {run.told[-500:]}")
        return run.printed


class Seen(NamedTuple):
    """What a client has counted: its requests, and how many of them it found wrong."""

    requests: int
    wrong: int = 0


def found(visit: Visit, bodies: Sequence[bytes]) -> Seen:
    """What a client saw that was given these bodies."""
    contents = visit.contents()
    wrong = sum(got != content for got, content in zip(bodies, contents))
    return Seen(len(bodies), wrong + abs(len(bodies) - len(contents)))


def curl(visit: Visit) -> Seen:
    paths = [visit.folder / str(number) for number in range(COUNT)]
    words = [
        word
        for path, target in zip(paths, visit.targets)
        for word in ("-o", str(path), visit.address(target))
    ]
    visit.run("curl", "-sS", "--fail", *words)
    return found(visit, [path.read_bytes() for path in paths])


def wget(visit: Visit) -> Seen:
    addresses = visit.write("addresses", "\n".join(map(visit.address, visit.targets)))
    # it names a file by the last part of its address
    visit.run("wget", "-nv", "-t", "1", "-P", str(visit.folder), "-i", addresses)
    paths = [visit.folder / target.rpartition("/")[2] for target in visit.targets]
    return found(visit, [path.read_bytes() for path in paths])


def node(visit: Visit) -> Seen:
    path = visit.write("client.js", NODE)
    got = json.loads(visit.run("node", path, str(visit.port), *visit.targets))
    return found(visit, [body.encode("latin1") for status, body in got if status == 200])


def python(visit: Visit) -> Seen:
    client = http.client.HTTPConnection(HOST, visit.port, timeout=LONGEST)
    bodies = []
    with contextlib.closing(client):
        for target in visit.targets:
            client.request("GET", target)
            answer = client.getresponse()
            body = answer.read()
            bodies.append(body if answer.status == 200 else b"")
    return found(visit, bodies)


def chromium(visit: Visit) -> Seen:
    dom = visit.run(
        "chromium",
        "--headless=new",
        "--no-sandbox",
        "--disable-gpu",
        "--disable-dev-shm-usage",
        "--disable-background-networking",
        "--no-first-run",
        f"--user-data-dir={visit.folder}/profile",
        "--dump-dom",
        visit.address(f"/{visit.name}/page.html"),
    )
    title = re.search("<title>(.*?)</title>", dom)
    got = title[1].split() if title else []
    expected = [f"{number}.js" for number in range(SCRIPTS)]
    return Seen(1 + len(got), int(got != expected))


def ab(visit: Visit) -> Seen:
    told = visit.run("ab", "-k", "-n", "60", "-c", "4", visit.address(visit.targets[0]))
    counts = {name.strip(): value.strip() for name, _, value in lines_of(told)}
    length = len(visit.contents()[0])
    is_right = counts["Document Length"] == f"{length} bytes"
    wrong = int(counts["Failed requests"]) + ("Non-2xx responses" in counts) + (not is_right)
    return Seen(int(counts["Complete requests"]), wrong)


def lines_of(told: str) -> Iterator[tuple[str, str, str]]:
    for line in told.splitlines():
        yield line.partition(":")


def wrk(visit: Visit) -> Seen:
    script = WRK.replace("EXPECTED", str(len(visit.contents()[0])))
    path = visit.write("script.lua", script)
    told = visit.run(
        "wrk", "-t", "2", "-c", "4", "-d", "2s", "-s", path, visit.address(visit.targets[0])
    )
    counts = re.search(r"counted\s+(\d+)\s+(\d+)\s+(\d+)", told)
    assert counts is not None, told
    right, wrong, errors = map(int, counts.groups())
    return Seen(right, wrong + errors)


def siege(visit: Visit) -> Seen:
    settings = "connection = keep-alive\nprotocol = HTTP/1.1\nparser = false\nlogging = false\n"
    path = visit.write("siegerc", f"{settings}json_output = true\nverbose = false\ncolor = off\n")
    large = next(target for target in visit.targets if target.endswith(".large"))
    told = visit.run("siege", "-R", path, "-c", "3", "-r", str(COUNT), "-b", visit.address(large))
    counts = json.loads(told[told.index("{") :])
    megabytes = counts["transactions"] * LARGE / MEGABYTE
    is_right = abs(counts["data_transferred"] - megabytes) <= ROUNDED
    return Seen(counts["transactions"], counts["failed_transactions"] + (not is_right))


def behind(name: str) -> Callable[[Visit], Seen]:
    """Clients of Python, each with a connection of its own, behind a proxy that keeps connections to
    the switch."""

    def visited(visit: Visit) -> Seen:
        place = Place(free_port(), visit.port, visit.folder)
        with peer(name, place, Mode.BOTH, 1) as proxy:
            seen = [python(visit._replace(port=proxy.port)) for _ in range(3)]
        return Seen(sum(each.requests for each in seen), sum(each.wrong for each in seen))

    return visited


class Client(NamedTuple):
    """A client: what it does, the package that has it, whether it keeps connections, and whether it
    heeds an answer that says that it is the last one."""

    visit: Callable[[Visit], Seen]
    package: str
    keeps: bool = True
    heeds_close: bool = True
    program: str = ""


CLIENTS = {
    "curl": Client(curl, "curl"),
    "wget": Client(wget, "wget"),
    "node": Client(node, "nodejs"),
    "python": Client(python, "python3", program="python3"),
    "chromium": Client(chromium, "chromium"),
    "ab": Client(ab, "apache2-utils", keeps=False),
    "wrk": Client(wrk, "wrk"),
    "siege": Client(siege, "siege", heeds_close=False),
    "haproxy": Client(behind("haproxy"), "haproxy"),
    "nginx": Client(behind("nginx"), "nginx"),
}


def is_installed(name: str) -> bool:
    program = CLIENTS[name].program or name
    return bool(shutil.which(program) or shutil.which(program, path="/usr/sbin:/sbin"))


def entries_of(log: pathlib.Path) -> list[LogEntry]:
    batch = read_lines(log.read_bytes().splitlines())
    check("lines that can't be read", (batch.unreadable, batch.lost), (0, 0))
    return batch.entries


def check_client(name: str, flags: Sequence[str], port: int, log: pathlib.Path) -> None:
    """Lets a client make its requests, and compares what it says with the log."""
    before = len(entries_of(log))
    with tempfile.TemporaryDirectory() as folder:
        # a proxy may run as another user
        pathlib.Path(folder).chmod(0o755)
        seen = CLIENTS[name].visit(Visit(name, port, pathlib.Path(folder)))
    check(f"{name}: no client is left", comes(lambda: not connections_at(port)), True)
    comes(lambda: len(entries_of(log)) >= before + seen.requests)
    lines = entries_of(log)[before:]
    own = [one for one in lines if (one.target or "").startswith(f"/{name}/")]
    others = collections.Counter(one.target for one in lines if one not in own)
    numbers = [one.connection_request or 0 for one in lines]
    print(
        f"{name}: {seen.requests} requests, {seen.wrong} wrong; the log has {len(own)} on"
        f" {numbers.count(1)} connections, at most {max(numbers, default=0)} of one"
        + (f"; others: {dict(others)}" if others else ""),
        flush=True,
    )
    check(f"{name}: wrong answers", seen.wrong, 0)
    check(f"{name}: it makes several requests", seen.requests >= COUNT, True)
    # wrk stops with requests under way, which it does not count
    least = len(own) >= seen.requests if name == "wrk" else len(own) == seen.requests
    check(f"{name}: a line for each request", least or (len(own), seen.requests), True)
    statuses = {one.status for one in own} - ({499, None} if name == "wrk" else set())
    check(f"{name}: statuses", statuses, {200})
    most = max(numbers, default=0)
    check(f"{name}: connections are kept", most > 1, CLIENTS[name].keeps)
    if flags:
        check(f"{name}: at most {FEW} requests of a connection", most <= FEW, True)


@contextlib.contextmanager
def serving(flags: Sequence[str], log: pathlib.Path) -> Iterator[int]:
    """The active port of a switch that keeps connections, with these flags and this log."""
    log.touch()
    endpoint = Contents()
    switch = Switch(
        NO_PREVIEW,
        preview=False,
        instead_of_workers=("--concurrency", "64"),
        descriptors=4096,
        flags=("--keep-alive", *flags),
        variables={ACCESS_LOG: str(log)},
    )
    try:
        check("listening", switch.first, LISTENING)
        for line in (f"open one {endpoint.port}", "available 1 1"):
            check(line, switch.answer_to(line), "ok 0")
        yield switch.active
    finally:
        switch.stop()


def play(names: Sequence[str]) -> None:
    for flags in ROUNDS:
        print(f"serve {' '.join(('--keep-alive', *flags))}", flush=True)
        with tempfile.TemporaryDirectory() as folder:
            log = pathlib.Path(folder) / "log"
            with serving(flags, log) as port:
                for name in names:
                    if flags and not CLIENTS[name].heeds_close:
                        continue
                    try:
                        check_client(name, flags, port, log)
                    except (OSError, ValueError, KeyError, AssertionError) as error:
                        checks.fail(name, repr(error))
                    except (http.client.HTTPException, subprocess.TimeoutExpired) as error:
                        checks.fail(name, repr(error))


def main() -> int:
    usage = (__doc__ or "").split("usage: ")[1].split("\n\n")[0]
    parser = argparse.ArgumentParser(prog="keep_alive_clients.py", usage=usage)
    parser.add_argument("--only", action="append", choices=list(CLIENTS))
    names: list[str] = parser.parse_args().only or list(CLIENTS)
    for name in names:
        if not is_installed(name):
            checks.fail(name, f"it is not installed: apt-get install {CLIENTS[name].package}")
    play([name for name in names if is_installed(name)])
    print(f"keep_alive_clients: {checks.COUNTS.passed} passed, {checks.COUNTS.failed} failed")
    return int(checks.COUNTS.failed != 0)


if __name__ == "__main__":
    sys.exit(main())
