#!/usr/bin/env python3
"""One of two endpoints dies or hangs under load: bg_switch beside nginx, in one run.

usage: bench/sick_endpoint.py [SECONDS] [RATE]        6 seconds and 100 requests a second without words

For each fault, a client sends requests at a fixed rate, whether or not earlier ones were answered.
After a third of the time the first endpoint is killed or stopped (SIGSTOP). Prints, for each proxy,
how many requests failed, how many took as long as a timeout (those were at the sick endpoint), and
the 99th percentile of the others. Fails if a request fails that was not at the sick endpoint, or if
the percentile is more than twice nginx's. Needs nginx and a C compiler; without them it says so,
with status 0.
"""
import asyncio
import json
import os
import pathlib
import shutil
import signal
import socket
import subprocess
import sys
import tempfile
import time
from typing import NamedTuple

TOP = pathlib.Path(__file__).resolve().parents[1]
PROGRAM = os.environ.get("BG_SWITCH_PROGRAM", str(TOP / "bin" / "bg_switch"))
ENDPOINTS = (19401, 19402)
NGINX, SWITCH, CONTROL = 18401, 18402, 18403
TIMEOUT = 3  # seconds of a response, at both proxies
REQUEST = b"GET / HTTP/1.1\r\nHost: x\r\nConnection: close\r\n\r\n"
# A request that took this share of the timeout was at the sick endpoint.
HELD = 0.8
MOST_RATIO, SLACK = 2.0, 0.002
STRATEGY = {"spec": {"replicas": 2, "strategy": {"blueGreen": {"activeService": "web"}}}}


class Answered(NamedTuple):
    """A request: whether it was answered 200, and the seconds that it took."""

    is_good: bool
    seconds: float


async def ask(port: int) -> Answered:
    begun = time.monotonic()
    try:
        reader, writer = await asyncio.open_connection("127.0.0.1", port)
        writer.write(REQUEST)
        told = await asyncio.wait_for(reader.read(), 4 * TIMEOUT)
        writer.close()
    except (OSError, asyncio.TimeoutError):
        told = b""
    return Answered(told.startswith(b"HTTP/1.1 200"), time.monotonic() - begun)


async def load(
    port: int, seconds: float, rate: int, sick: subprocess.Popen[bytes], fault: signal.Signals
) -> list[Answered]:
    """Sends `rate` requests a second, and lets the fault happen after a third of the time."""
    tasks, begun, has_failed = [], time.monotonic(), False
    for number in range(int(seconds * rate)):
        due = begun + number / rate
        await asyncio.sleep(max(0.0, due - time.monotonic()))
        if not has_failed and time.monotonic() - begun > seconds / 3:
            sick.send_signal(fault)
            has_failed = True
        tasks.append(asyncio.create_task(ask(port)))
    return list(await asyncio.gather(*tasks))


def percentile(times: list[float]) -> float:
    return sorted(times)[min(len(times) - 1, int(len(times) * 0.99))]


def nginx_conf(folder: str) -> str:
    servers = " ".join(
        f"server 127.0.0.1:{port} max_fails=1 fail_timeout=1s;" for port in ENDPOINTS
    )
    return f"""worker_processes 2; pid {folder}/nginx.pid; error_log /dev/null crit; events {{ worker_connections 4096; }}
http {{ access_log off; client_body_temp_path tmp; proxy_temp_path tmp; fastcgi_temp_path tmp; uwsgi_temp_path tmp;
scgi_temp_path tmp; upstream two {{ {servers} }}
server {{ listen 127.0.0.1:{NGINX} backlog=4096; keepalive_timeout 0; location / {{ proxy_pass http://two;
proxy_connect_timeout {TIMEOUT}s; proxy_read_timeout {TIMEOUT}s; proxy_next_upstream error timeout; }} }} }}"""


def send(*lines: str) -> None:
    with socket.create_connection(("127.0.0.1", CONTROL)) as operator:
        operator.sendall("".join(f"{line}\n" for line in lines).encode())
        operator.shutdown(socket.SHUT_WR)
        while operator.recv(4096):
            pass


class Proxies:
    """Two endpoints, nginx and a switch before them."""

    def __init__(self, folder: str) -> None:
        self.endpoints = [
            subprocess.Popen([f"{folder}/endpoint", str(port), "2"]) for port in ENDPOINTS
        ]
        pathlib.Path(folder, "nginx.conf").write_text(nginx_conf(folder), encoding="ascii")
        pathlib.Path(folder, "tmp").mkdir(exist_ok=True)
        self.nginx = subprocess.Popen(
            ["nginx", "-p", folder, "-c", "nginx.conf", "-g", "daemon off;"]
        )
        self.switch = subprocess.Popen(
            [
                PROGRAM,
                "serve",
                "--active",
                str(SWITCH),
                "--control",
                str(CONTROL),
                "--concurrency",
                "64",
                "--redispatch",
                "--forever",
            ],
            stdin=subprocess.PIPE,
            stdout=subprocess.PIPE,
            env={**os.environ, "BG_SWITCH_PATIENCE_SECONDS": str(TIMEOUT)},
        )
        assert self.switch.stdin and self.switch.stdout
        self.switch.stdin.write(json.dumps(STRATEGY).encode())
        self.switch.stdin.close()
        self.switch.stdout.readline()
        send(f"open v1 {ENDPOINTS[0]} {ENDPOINTS[1]}", "available 1 2")
        time.sleep(0.5)

    def end(self) -> None:
        for process in (*self.endpoints, self.nginx, self.switch):
            process.send_signal(signal.SIGCONT)
            process.terminate()
        for process in (*self.endpoints, self.nginx, self.switch):
            process.wait()


def measured(
    folder: str, port: int, seconds: float, rate: int, fault: signal.Signals
) -> list[Answered]:
    proxies = Proxies(folder)
    try:
        return asyncio.run(load(port, seconds, rate, proxies.endpoints[0], fault))
    finally:
        proxies.end()


def judge(name: str, ended: list[Answered]) -> float:
    """Prints what came of a load, and gives the percentile of the requests that were not at the
    sick endpoint."""
    others = [one for one in ended if one.seconds < HELD * TIMEOUT]
    bad = sum(not one.is_good for one in others)
    p99 = percentile([one.seconds for one in others])
    print(
        f"{name}: {len(ended)} requests, {sum(not one.is_good for one in ended)} failed, {len(ended) - len(others)} held until "
        f"the timeout, p99 of the others {1000 * p99:.1f} ms, {bad} of them failed",
        flush=True,
    )
    return p99


def main() -> int:
    if not all(shutil.which(tool) for tool in ("nginx", "cc")):
        print("sick_endpoint needs nginx and a C compiler: nothing was measured")
        return 0
    seconds, rate = (
        float(sys.argv[1]) if len(sys.argv) > 1 else 6.0,
        int(sys.argv[2]) if len(sys.argv) > 2 else 100,
    )
    has_missed = False
    with tempfile.TemporaryDirectory() as folder:
        subprocess.run(
            [
                "cc",
                "-O2",
                "-o",
                f"{folder}/endpoint",
                str(TOP / "bench" / "concurrency" / "endpoint.c"),
            ],
            check=True,
        )
        for fault, name in ((signal.SIGKILL, "killed"), (signal.SIGSTOP, "stopped")):
            peer = judge(f"{name}, nginx    ", measured(folder, NGINX, seconds, rate, fault))
            ended = measured(folder, SWITCH, seconds, rate, fault)
            own = judge(f"{name}, bg_switch", ended)
            ratio = (own + SLACK) / (peer + SLACK)
            print(
                f"ratio of p99 and {1000 * SLACK:.0f} ms to nginx's, {name} endpoint: {ratio:.2f}",
                flush=True,
            )
            lost = [one for one in ended if not one.is_good and one.seconds < HELD * TIMEOUT]
            # a request that was being served when the endpoint was killed can't be sent again
            if own > MOST_RATIO * peer + SLACK or len(lost) > (2 if fault == signal.SIGKILL else 0):
                print("  MISSED")
                has_missed = True
    return int(has_missed)


if __name__ == "__main__":
    sys.exit(main())
