"""Clients that ask in a loop: python3 -m support.fleet.client HOST PORT THREADS. A line of JSON for
each request."""
import http.client
import json
import sys
import threading
import time

from support.fleet.recording import Answered
from support.moments import moment

PAUSE, LONGEST = 0.04, 10.0  # seconds


def wall_clock_lead() -> float:
    """By how many seconds the wall clock is ahead of the boot clock. Only a step changes it much."""
    return time.time() - moment()


def ask(host: str, port: int) -> Answered:
    """One request. The first word of the body is the revision, and the field X-Host the machine."""
    begun, lead, status, revision, machine = moment(), wall_clock_lead(), 0, "", ""
    connection = http.client.HTTPConnection(host, port, timeout=LONGEST)
    try:
        connection.request("GET", "/")
        answer = connection.getresponse()
        body = answer.read().decode("latin-1")
        status, machine = answer.status, answer.headers.get("X-Host", "")
        revision = body.split()[0] if status == 200 and body else ""
    except (OSError, http.client.HTTPException):
        pass
    finally:
        connection.close()
    stepped = round(wall_clock_lead() - lead, 1)
    return Answered(begun, moment() - begun, status, revision, machine, stepped)


def main(host: str, port: int, threads: int) -> None:
    lock = threading.Lock()

    def go_on() -> None:
        while True:
            answered = ask(host, port)
            with lock:
                print(json.dumps(answered._asdict()), flush=True)
            time.sleep(PAUSE)

    for _ in range(threads):
        threading.Thread(target=go_on, daemon=True).start()
    threading.Event().wait()


if __name__ == "__main__":
    main(sys.argv[1], int(sys.argv[2]), int(sys.argv[3]))
