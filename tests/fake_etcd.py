"""A server that answers as the JSON gateway of etcd does, or as a test wants it."""
import base64
import json
import socket
from collections.abc import Callable, Mapping

from bg_switch_tools.fleet.store.store_endpoints import StoreEndpoint
from support import endpoints
from support.messages import response
from support.ports import HOST

CLUSTER = "1001"
RANGE, TRANSACTION, WATCH = "/v3/kv/range", "/v3/kv/txn", "/v3/watch"
GRANT, REFRESH, REVOKE = "/v3/lease/grant", "/v3/lease/keepalive", "/v3/lease/revoke"
Json = Mapping[str, object]
Answer = Callable[[socket.socket], None]


def header(revision: int = 7, cluster: str = CLUSTER) -> dict[str, str]:
    return {"cluster_id": cluster, "member_id": "1", "revision": str(revision), "raft_term": "2"}


def in_base64(text: str) -> str:
    return base64.b64encode(text.encode()).decode()


def key(name: str, value: str = "") -> dict[str, str]:
    return {
        "key": in_base64(name),
        "create_revision": "3",
        "mod_revision": "4",
        "version": "2",
        "value": in_base64(value),
    }


def keys(*listed: Json, revision: int = 7, cluster: str = CLUSTER) -> bytes:
    """The answer to a read."""
    return of_json({"header": header(revision, cluster), "kvs": listed, "count": str(len(listed))})


def of_json(told: object, status: bytes = b"200 OK") -> bytes:
    return response(json.dumps(told).encode()).replace(b"200 OK", status, 1)


def refused(told: str, code: int, status: bytes) -> bytes:
    return of_json({"error": told, "message": told, "code": code}, status)


def sending(*pieces: bytes) -> Answer:
    """Sends these bytes, and ends the connection."""

    def send(connection: socket.socket) -> None:
        for piece in pieces:
            connection.sendall(piece)

    return send


CREATED = json.dumps({"result": {"header": header(), "created": True}}).encode() + b"\n"
CHUNKED = b"HTTP/1.1 200 OK\r\nContent-Type: application/json\r\nTransfer-Encoding: chunked\r\n\r\n"


def chunk(body: bytes) -> bytes:
    return b"%x\r\n%s\r\n" % (len(body), body)


class FakeEtcd(endpoints.Endpoint):
    """Answers a call by its path. `asked` are the paths and the messages of all calls, in turn."""

    def __init__(self, **answers: Answer) -> None:
        """The answers to other calls than these are good: `read`, `write`, `grant`, `refresh`,
        `revoke`, `wait`."""
        self.asked: list[tuple[str, dict[str, object]]] = []
        good = {
            RANGE: keys(key("/bg-switch/web/a", "1")),
            TRANSACTION: of_json({"header": header(8), "succeeded": True, "responses": []}),
            GRANT: of_json({"header": header(), "ID": "9", "TTL": "3"}),
            REFRESH: of_json({"result": {"header": header(), "ID": "9", "TTL": "3"}}),
            REVOKE: of_json({"header": header()}),
            WATCH: CHUNKED
            + chunk(CREATED)
            + chunk(b'{"result":{"header":' + json.dumps(header()).encode() + b',"events":[{}]}}\n')
            + chunk(b""),
        }
        names = {
            "read": RANGE,
            "write": TRANSACTION,
            "grant": GRANT,
            "refresh": REFRESH,
            "revoke": REVOKE,
            "wait": WATCH,
        }
        self.answers: dict[str, Answer] = {path: sending(each) for path, each in good.items()}
        self.answers.update({names[name]: each for name, each in answers.items()})
        super().__init__(self.give)

    @property
    def endpoint(self) -> StoreEndpoint:
        return StoreEndpoint(HOST, self.port)

    def give(self, request: endpoints.Request, connection: socket.socket) -> None:
        path = request.target.decode()
        self.asked.append((path, json.loads(request.body)))
        self.answers[path](connection)

    def calls(self, path: str) -> int:
        return sum(each == path for each, _ in self.asked)
