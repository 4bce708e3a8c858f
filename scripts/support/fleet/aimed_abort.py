"""An abort by a person at the worst moment: when an attempt begins to be promoted, and agents have
read that."""
import json

from support.fleet.etcd_client import EtcdClient
from support.fleet.recording import Event


def is_promoting(event: Event, name: str) -> bool:
    """Whether a change of the keys begins to promote this revision."""
    record = json.loads(event.value) if event.name == "attempt" and event.value else {}
    return (record.get("stage"), record.get("revision", {}).get("name")) == ("promoting", name)


def promoted_attempt(client: EtcdClient, name: str, seconds: float) -> int | None:
    """The id of the attempt of this revision, at the moment at which it begins to be promoted; None
    if that does not come within `seconds` seconds. `EtcdClientError` if no member of etcd answers.
    """
    for event in client.follow(seconds):
        if is_promoting(event, name):
            return int(json.loads(event.value or "")["id"])
    return None


def put_abort(client: EtcdClient, attempt: int) -> None:
    """Puts the key of the order, as the command would: a process would come too late.
    `EtcdClientError` if no member answers."""
    client.put(
        "order", json.dumps({"version": 1, "order": "abort", "attempt": attempt, "by": "drill"})
    )
