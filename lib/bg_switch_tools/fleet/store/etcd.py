"""The store of a fleet in etcd, version 3.4 or later: its keys, transactions, leases and watches.

This module, `etcd_gateway` and `etcd_answers` are the only ones that know etcd.
"""
import base64
from collections.abc import Collection, Mapping, Sequence

from bg_switch_tools.fleet.store.etcd_answers import (
    NOT_FOUND,
    EtcdRefusedError,
    member,
    number,
    signed_number,
    text,
)
from bg_switch_tools.fleet.store.etcd_gateway import EtcdSettings, Gateway, WatchCall
from bg_switch_tools.fleet.store.store import (
    NO_WATCH_STATE,
    Compare,
    Key,
    Snapshot,
    WatchState,
)
from bg_switch_tools.fleet.store.time_limit import TimeLimit
from bg_switch_tools.fleet.store.timed_post import NoAnswerError
from bg_switch_tools.switch.json_values import JsonObject

RANGE, TRANSACTION = "/v3/kv/range", "/v3/kv/txn"
GRANT, REFRESH, REVOKE = "/v3/lease/grant", "/v3/lease/keepalive", "/v3/lease/revoke"
TIME_TO_LIVE = "/v3/lease/timetolive"
# By what a compare requires: the name of etcd, and the field of the revision.
TARGETS = {"created": ("CREATE", "create_revision"), "changed": ("MOD", "mod_revision")}


def encoded(text: str) -> str:
    """A key or a value as the gateway has them: its bytes in base 64."""
    return base64.b64encode(text.encode()).decode()


def text_of(encoded_text: str) -> str:
    """The text of a key or a value. Bytes that are not UTF-8 become replacement characters.
    `NoAnswerError` if it is not base 64."""
    try:
        return base64.b64decode(encoded_text, validate=True).decode(errors="replace")
    except ValueError:
        raise NoAnswerError("its answer has a key or a value that is not base 64") from None


def all_below(prefix: str) -> dict[str, str]:
    """The range of all keys that begin with a prefix in ASCII: etcd takes the first key that is not
    of the range as its end."""
    return {"key": encoded(prefix), "range_end": encoded(prefix[:-1] + chr(ord(prefix[-1]) + 1))}


def revision_of(answer: JsonObject) -> int | None:
    """The revision of a transaction; None if a compare did not hold."""
    return number(member(answer, "header"), "revision") if answer.get("succeeded") is True else None


class EtcdStore:
    """The store of a fleet. Several threads may use one. See `Store` for what the calls do."""

    def __init__(self, settings: EtcdSettings, fleet: str) -> None:
        self.prefix = f"/bg-switch/{fleet}/"
        self._gateway = Gateway(settings)

    def read(self) -> Snapshot:
        return self._gateway.read(RANGE, all_below(self.prefix), self._snapshot)

    def _snapshot(self, answer: JsonObject) -> Snapshot:
        listed = answer.get("kvs", [])
        if not isinstance(listed, list) or len(listed) != number(answer, "count"):
            raise NoAnswerError("its answer does not have all keys")
        keys = {}
        for each in listed:
            if not isinstance(each, JsonObject):
                raise NoAnswerError("its answer has a key that is not an object")
            name = text_of(text(each, "key"))
            if not name.startswith(self.prefix):
                raise NoAnswerError("its answer has a key that was not asked for")
            keys[name.removeprefix(self.prefix)] = Key(
                text_of(text(each, "value")),
                number(each, "create_revision"),
                number(each, "mod_revision"),
                number(each, "lease"),
            )
        header = member(answer, "header")
        return Snapshot(number(header, "revision"), str(number(header, "cluster_id")), keys)

    def write(
        self,
        compares: Sequence[Compare],
        puts: Mapping[str, str],
        deletes: Collection[str] = (),
        lease: int = 0,
    ) -> int | None:
        requests: list[object] = [
            {
                "request_put": {
                    "key": encoded(self.prefix + name),
                    "value": encoded(value),
                    "lease": str(lease),
                }
            }
            for name, value in puts.items()
        ]
        requests += [
            {"request_delete_range": {"key": encoded(self.prefix + name)}} for name in deletes
        ]
        message = {"compare": [self._compare(each) for each in compares], "success": requests}
        return self._gateway.call_once(TRANSACTION, message, revision_of)

    def _compare(self, compare: Compare) -> dict[str, str]:
        target, field = TARGETS[compare.what]
        name = self.prefix + compare.name
        if name.endswith("/"):  # etcd has no result "at most"
            return {
                **all_below(name),
                "target": target,
                "result": "LESS",
                field: str(compare.value + 1),
            }
        return {
            "key": encoded(name),
            "target": target,
            "result": "EQUAL",
            field: str(compare.value),
        }

    def grant(self, seconds: int) -> int:
        return self._gateway.call(GRANT, {"TTL": str(seconds)}, lambda answer: number(answer, "ID"))

    def refresh(self, lease: int) -> int:
        return self._gateway.call(REFRESH, {"ID": str(lease)}, lambda answer: number(answer, "TTL"))

    def seconds_left(self, lease: int) -> int:
        # by etcd's monotonic clock, rounded towards 0; -1 of a lease that is gone
        return self._gateway.call(
            TIME_TO_LIVE, {"ID": str(lease)}, lambda answer: signed_number(answer, "TTL")
        )

    def revoke(self, lease: int) -> None:
        try:
            self._gateway.call(REVOKE, {"ID": str(lease)}, lambda answer: None)
        except EtcdRefusedError as refusal:
            if refusal.code != NOT_FOUND:
                raise

    def wait(self, after: int, seconds: float, state: WatchState = NO_WATCH_STATE) -> bool:
        message = {"create_request": {**all_below(self.prefix), "start_revision": str(after + 1)}}
        return self._gateway.watch(WatchCall(message, after, TimeLimit(seconds), state))
