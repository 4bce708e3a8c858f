"""A small client of etcd for drills, which shares no code with the fleet: its keys, their history,
and the moments of revisions."""
import base64
import contextlib
import http.client
import json
import pathlib
import threading
import time
from collections.abc import Iterator, Sequence
from typing import Any

from support.fleet.hosts import Address, Network
from support.fleet.recording import HISTORY, POLLS, Event, Poll
from support.moments import moment

TIMEOUT = 1.0  # seconds for a call
PERIOD = 0.05  # seconds between two polls
SILENCE = 2.0  # seconds without a change, after which another member is asked for changes
END_OF_HISTORY = "drill/end-of-history"
LONGEST_END = 30.0  # seconds in which the last changes come
FIELDS = {"Grpc-Metadata-hasleader": "true"}  # a member without a leader says so, and is not silent


class EtcdClientError(Exception):
    """No member of etcd has answered."""


def coded(text: str) -> str:
    return base64.b64encode(text.encode()).decode()


def decoded(text: str) -> str:
    return base64.b64decode(text).decode()


class EtcdClient:
    """Asks one member after the other until one answers. One thread uses one."""

    def __init__(self, network: Network, fleet: str) -> None:
        self.network = network
        self.prefix = f"/bg-switch/{fleet}/"
        self.endpoints = network.etcd_of("")

    def _range(self) -> dict[str, str]:
        return {"key": coded(self.prefix), "range_end": coded(self.prefix[:-1] + chr(ord("/") + 1))}

    def _connected(self, endpoint: Address, timeout: float) -> http.client.HTTPConnection:
        connection = http.client.HTTPConnection(endpoint.host, endpoint.port, timeout=timeout)
        with self.network.inside():
            connection.connect()
        return connection

    def _call(self, path: str, message: object) -> dict[str, Any]:
        faults = []
        for endpoint in list(self.endpoints):
            try:
                with contextlib.closing(self._connected(endpoint, TIMEOUT)) as connection:
                    connection.request("POST", path, json.dumps(message), FIELDS)
                    answer = connection.getresponse()
                    told = json.loads(answer.read())
                if answer.status == 200:
                    return told  # type: ignore[no-any-return]
                faults.append(f"{endpoint}: {told.get('error')}")
            except (OSError, ValueError, http.client.HTTPException) as error:
                faults.append(f"{endpoint}: {type(error).__name__} {error}")
            self.endpoints.append(self.endpoints.pop(0))
        raise EtcdClientError("; ".join(faults))

    def poll(self) -> Poll:
        """The revision of the store and the term of its leader, by a linearizable read."""
        begun = moment()
        header = self._call("/v3/kv/range", {"key": coded("/"), "count_only": True})["header"]
        return Poll(begun, moment(), int(header["revision"]), int(header["raft_term"]))

    def revision(self) -> int:
        """The revision of the store, by a linearizable read."""
        return self.poll().revision

    def entries(self) -> dict[str, Event]:
        """All keys of the fleet by their names, each as it was changed last."""
        found = [
            self._event(key) for key in self._call("/v3/kv/range", self._range()).get("kvs", [])
        ]
        return {event.name: event for event in found}

    def keys(self) -> dict[str, str]:
        """The values of all keys of the fleet, by their names."""
        return {name: event.value or "" for name, event in self.entries().items()}

    def _event(self, key: dict[str, Any], is_deleted: bool = False) -> Event:
        return Event(
            int(key["mod_revision"]),
            decoded(key["key"]).removeprefix(self.prefix),
            None if is_deleted else decoded(key.get("value", "")),
            int(key.get("create_revision", 0)),
        )

    def put(self, name: str, value: str) -> int:
        """Writes a key. Gives the revision."""
        return int(
            self._call("/v3/kv/put", {"key": coded(self.prefix + name), "value": coded(value)})[
                "header"
            ]["revision"]
        )

    def delete(self, name: str) -> int:
        return int(
            self._call("/v3/kv/deleterange", {"key": coded(self.prefix + name)})["header"][
                "revision"
            ]
        )

    def compact(self, revision: int) -> None:
        """Lets the store drop the values before those of this revision. `EtcdClientError` also if
        it has done so before."""
        self._call("/v3/kv/compaction", {"revision": str(revision)})

    def changes(self, first: int) -> Iterator[Event]:
        """The changes from a revision on, by one member, until none comes for a while. Another call
        asks the next member."""
        with contextlib.suppress(OSError, ValueError, http.client.HTTPException):
            yield from self._watched(self.endpoints[0], SILENCE, first)
        self.endpoints.append(self.endpoints.pop(0))

    def follow(self, seconds: float) -> Iterator[Event]:
        """The changes of the keys from now on, as they come, for `seconds` seconds.
        `EtcdClientError` if no member answers at first."""
        after, end = self.revision(), time.monotonic() + seconds
        while (left := end - time.monotonic()) > 0:
            with contextlib.suppress(OSError, ValueError, http.client.HTTPException):
                for event in self._watched(self.endpoints[0], left, after + 1):
                    after = event.revision
                    yield event
            self.endpoints.append(self.endpoints.pop(0))
            time.sleep(PERIOD)

    def _watched(self, endpoint: Address, seconds: float, first: int = 1) -> Iterator[Event]:
        """The changes from a revision on, by one member, which has `seconds` seconds for each of
        them."""
        with contextlib.closing(self._connected(endpoint, seconds)) as connection:
            message = {"create_request": {**self._range(), "start_revision": str(first)}}
            connection.request("POST", "/v3/watch", json.dumps(message), FIELDS)
            answer = connection.getresponse()
            while line := answer.readline():
                told = json.loads(line)
                if "result" not in told:
                    raise ValueError(f"the watch has ended: {told}")
                for event in told["result"].get("events", []):
                    yield self._event(event["kv"], event.get("type") == "DELETE")


class Recorder:
    """Reads the store's revision again and again, and keeps all changes as they come, so that the
    store may be compacted."""

    def __init__(self, network: Network, fleet: str, folder: pathlib.Path) -> None:
        self.client, self.follower = EtcdClient(network, fleet), EtcdClient(network, fleet)
        self.folder = folder
        self.events: list[Event] = []
        self.followed = 0  # the revision of the latest change that was kept
        self.ending, self.has_all = threading.Event(), threading.Event()
        self.thread = threading.Thread(target=self._poll, daemon=True)
        self.thread.start()
        threading.Thread(target=self._follow, daemon=True).start()

    def _follow(self) -> None:
        while not self.has_all.is_set():
            for event in self.follower.changes(self.followed + 1):
                self.events.append(event)
                self.followed = event.revision
                if event.name == END_OF_HISTORY:
                    self.has_all.set()
                    return
            time.sleep(PERIOD)

    def _poll(self) -> None:
        with open(self.folder / POLLS, "a", encoding="ascii") as file:
            while not self.ending.wait(PERIOD):
                with contextlib.suppress(EtcdClientError):
                    file.write(json.dumps(self.client.poll()._asdict()) + "\n")

    def end(self) -> None:
        """Writes the history. `EtcdClientError` if etcd does not give it in time."""
        self.ending.set()
        self.thread.join()
        end = time.monotonic() + LONGEST_END
        while not self.has_all.is_set():
            with contextlib.suppress(EtcdClientError):
                self.client.put(END_OF_HISTORY, "")
            if time.monotonic() > end:
                raise EtcdClientError("the history of the keys did not come in time")
            self.has_all.wait(SILENCE)
        rows = [each for each in self.events if not each.name.startswith("drill/")]
        write_rows(self.folder / HISTORY, rows)


def write_rows(path: pathlib.Path, rows: Sequence[Any]) -> None:
    """Writes named tuples, a line of JSON for each."""
    path.write_text("".join(json.dumps(row._asdict()) + "\n" for row in rows), encoding="utf-8")
