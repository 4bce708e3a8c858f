"""The store of a fleet on a real etcd: its reads, writes, leases and waits, and what it says if
etcd has a fault."""
import shutil
import threading
import unittest
import urllib.request
from collections.abc import Callable

from bg_switch_tools.fleet.store.store import Compare, Key, Store, StoreError
from support.pace import is_within
from tests.real_etcd import (
    MISSING,
    PROGRAM,
    Cluster,
    WithCluster,
    asked,
    in_base64,
    port_that_refuses,
    put,
)
from tests.store_checks import PREFIX, TIMEOUT, fault_of, seconds_of, store_at
from tests.tool_runs import comes

SOON = 3.0  # seconds within which a wait that is woken ends
LONG = 30.0  # seconds of a wait that is woken


class OnOne(WithCluster):
    """A store on one member, which is empty at first."""

    def setUp(self) -> None:
        self.endpoint = self.cluster.endpoints[0]
        asked(
            self.endpoint,
            "/v3/kv/deleterange",
            {"key": in_base64("\0"), "range_end": in_base64("\0")},
        )
        self.store: Store = store_at(self.endpoint)

    def value(self, key: str) -> str | None:
        """The value of a whole key, as etcd itself has it in base 64; None if there is no such
        key."""
        found = asked(self.endpoint, "/v3/kv/range", {"key": in_base64(key)}).get("kvs")
        return str(found[0].get("value", "")) if isinstance(found, list) else None

    def revision(self) -> int:
        return self.store.read().revision


class Reads(OnOne):
    def test_all_keys_below_the_prefix_and_no_other(self) -> None:
        outside = [
            "/bg-switch/web",
            "/bg-switch/web-2/a",
            "/bg-switch/web.",
            "/bg-switch/web0",
            "/bg-switch/web00",
            "/bg-switch/x/a",
            "/bg-switch/we/a",
            "a",
            "z",
        ]
        inside = ["!", "attempt", "members/web-1", "members/web-2", "plan", "~", "é", ""]
        for key in [*outside, *(PREFIX + name for name in inside)]:
            put(self.endpoint, key, "v")
        self.assertEqual(sorted(self.store.read().keys), sorted(inside))

    def test_what_a_key_has(self) -> None:
        before = self.revision()
        lease = self.store.grant(60)
        self.store.write([], {"a": "one", "b": ""}, (), 0)
        self.store.write([], {"a": "two é \n"}, (), lease)
        snapshot = self.store.read()
        self.assertEqual(
            snapshot.keys,
            {
                "a": Key("two é \n", before + 1, before + 2, lease),
                "b": Key("", before + 1, before + 1, 0),
            },
        )
        self.assertEqual(snapshot.revision, before + 2)
        header = asked(self.endpoint, "/v3/kv/range", {"key": in_base64("x")})["header"]
        self.assertEqual(
            snapshot.cluster, header["cluster_id"] if isinstance(header, dict) else None
        )

    def test_bytes_that_are_no_text_end_nothing(self) -> None:
        asked(self.endpoint, "/v3/kv/put", {"key": in_base64(PREFIX + "a"), "value": "/w=="})
        self.assertEqual(self.store.read().keys["a"].value, "�")

    def test_a_large_value(self) -> None:
        large = "x" * 1_000_000
        self.assertIsNotNone(self.store.write([], {"plan": large}))
        self.assertEqual(self.store.read().keys["plan"].value, large)

    def test_a_value_that_is_too_large_is_a_fault(self) -> None:
        told = fault_of(lambda: self.store.write([], {"plan": "x" * 2_000_000}))
        self.assertEqual(told, "etcd refuses this: etcdserver: request is too large")
        self.assertEqual(self.store.read().keys, {})


class Writes(OnOne):
    def written(self, *compares: Compare) -> bool:
        """Whether a write with these compares is carried out. It has changed nothing if not."""
        before = self.store.read()
        revision = self.store.write(compares, {"result": "v"}, ["gone"])
        after = self.store.read()
        self.assertEqual(after.revision, revision or before.revision)
        if revision is None:
            self.assertEqual(after, before)
        else:
            self.assertEqual(
                (after.keys["result"].changed, after.revision), (revision, before.revision + 1)
            )
        return revision is not None

    def test_puts_and_deletes_are_one_step(self) -> None:
        self.store.write([], {"gone": "", "a": "1"})
        before = self.revision()
        revision = self.store.write([], {"a": "2", "b": "3"}, ["gone", "absent"])
        self.assertEqual(revision, before + 1)
        self.assertEqual(
            {name: (key.value, key.changed) for name, key in self.store.read().keys.items()},
            {"a": ("2", revision), "b": ("3", revision)},
        )

    def test_a_compare_of_the_creation(self) -> None:
        self.assertTrue(self.written(Compare("leader", "created", 0)))
        created = self.store.write([], {"leader": "a"}) or 0
        self.store.write([], {"leader": "b"})
        self.assertFalse(self.written(Compare("leader", "created", 0)))
        self.assertFalse(self.written(Compare("leader", "created", created + 1)))
        self.assertTrue(self.written(Compare("leader", "created", created)))

    def test_a_compare_of_the_last_change(self) -> None:
        self.assertTrue(self.written(Compare("attempt", "changed", 0)))
        created = self.store.write([], {"attempt": "a"}) or 0
        changed = self.store.write([], {"attempt": "b"}) or 0
        self.assertFalse(self.written(Compare("attempt", "changed", 0)))
        self.assertFalse(self.written(Compare("attempt", "changed", created)))
        self.assertTrue(self.written(Compare("attempt", "changed", changed)))

    def test_all_compares_have_to_hold(self) -> None:
        changed = self.store.write([], {"a": "", "b": ""}) or 0
        holds, fails = Compare("a", "changed", changed), Compare("b", "changed", changed - 1)
        self.assertTrue(self.written(holds, Compare("b", "changed", changed)))
        for compares in ([holds, fails], [fails, holds], [fails]):
            self.assertFalse(self.written(*compares))

    def test_a_compare_of_a_prefix(self) -> None:
        self.assertTrue(self.written(Compare("members/", "changed", 0)))
        self.store.write([], {"members": "", "members0": "", "members.": "", "membersx/a": ""})
        self.assertTrue(self.written(Compare("members/", "changed", 0)))
        one = self.store.write([], {"members/a": ""}) or 0
        two = self.store.write([], {"members/b": ""}) or 0
        three = self.store.write([], {"members/a": "again"}) or 0
        for newest, holds in (
            (0, False),
            (one, False),
            (two, False),
            (three - 1, False),
            (three, True),
            (three + 9, True),
        ):
            self.assertEqual(self.written(Compare("members/", "changed", newest)), holds, newest)
        self.assertFalse(self.written(Compare("members/", "created", one)))
        self.assertTrue(self.written(Compare("members/", "created", two)))
        self.store.write([], {}, ["members/a"])
        self.assertTrue(
            self.written(Compare("members/", "changed", two)), "a deletion does not count"
        )

    def test_two_writers_of_one_revision(self) -> None:
        """Of many that write at once with the same compare, one does."""
        won: list[int] = []

        def write(number: int) -> None:
            if (
                store_at(self.endpoint).write(
                    [Compare("leader", "created", 0)], {"leader": str(number)}
                )
                is not None
            ):
                won.append(number)

        threads = [threading.Thread(target=write, args=(number,)) for number in range(8)]
        for thread in threads:
            thread.start()
        for thread in threads:
            thread.join()
        self.assertEqual([self.store.read().keys["leader"].value], [str(number) for number in won])


class Leases(OnOne):
    def test_a_put_has_its_lease_and_goes_with_it(self) -> None:
        lease = self.store.grant(60)
        self.store.write([], {"leader": "a"}, (), lease)
        self.store.write([], {"attempt": "b"})
        self.assertEqual(
            {name: key.lease for name, key in self.store.read().keys.items()},
            {"leader": lease, "attempt": 0},
        )
        self.store.revoke(lease)
        self.assertEqual(list(self.store.read().keys), ["attempt"])

    def test_a_put_without_a_lease_loses_the_one_before(self) -> None:
        lease = self.store.grant(60)
        self.store.write([], {"leader": "a"}, (), lease)
        self.store.write([], {"leader": "a"})
        self.store.revoke(lease)
        self.assertEqual(list(self.store.read().keys), ["leader"])

    def test_a_lease_ends_unless_it_is_refreshed(self) -> None:
        kept, left = self.store.grant(2), self.store.grant(2)
        self.store.write([], {"kept": ""}, (), kept)
        self.store.write([], {"left": ""}, (), left)

        def refreshed() -> bool:
            self.assertGreaterEqual(self.store.refresh(kept), 2)
            return "left" not in self.store.read().keys

        self.assertTrue(comes(refreshed))
        self.assertEqual(list(self.store.read().keys), ["kept"])
        self.assertEqual(self.store.refresh(left), 0)

    def test_a_lease_that_is_gone(self) -> None:
        lease = self.store.grant(60)
        self.assertIn(self.store.seconds_left(lease), range(50, 61))
        self.store.revoke(lease)
        self.store.revoke(lease)
        self.assertEqual(self.store.refresh(lease), 0)
        self.assertEqual(self.store.seconds_left(lease), -1)
        self.assertEqual(
            fault_of(lambda: self.store.write([], {"a": ""}, (), lease)),
            "etcd refuses this: etcdserver: requested lease not found",
        )
        self.assertEqual(self.store.read().keys, {})


class Waits(OnOne):
    def after(self, seconds: float, call: Callable[[], object]) -> None:
        timer = threading.Timer(seconds, call)
        timer.start()
        self.addCleanup(timer.join)

    def assert_woken(self, after: int) -> None:
        """A wait is woken soon."""
        seconds = seconds_of(lambda: self.store.wait(after, LONG))
        self.assertTrue(is_within(seconds, SOON), seconds)

    def test_a_change_wakes(self) -> None:
        self.store.write([], {"a": ""})
        for name, change in (
            ("put", lambda: put(self.endpoint, PREFIX + "b")),
            ("again", lambda: put(self.endpoint, PREFIX + "b")),
            (
                "delete",
                lambda: asked(
                    self.endpoint, "/v3/kv/deleterange", {"key": in_base64(PREFIX + "a")}
                ),
            ),
        ):
            with self.subTest(name):
                after = self.revision()
                self.after(0.4, change)
                seconds = seconds_of(lambda after=after: self.store.wait(after, LONG))  # type: ignore[misc]
                self.assertGreater(seconds, 0.3)
                self.assertTrue(is_within(seconds, 0.4 + SOON), seconds)

    def test_a_change_between_the_read_and_the_wait_wakes(self) -> None:
        after = self.revision()
        put(self.endpoint, PREFIX + "a")
        put(self.endpoint, "/other")
        self.assert_woken(after)

    def test_nothing_else_wakes(self) -> None:
        self.store.write([], {"a": ""})
        after = self.revision()
        self.after(0.2, lambda: put(self.endpoint, "/bg-switch/web-2/a"))
        self.after(0.3, lambda: put(self.endpoint, "/bg-switch/web0"))
        seconds = seconds_of(lambda: self.store.wait(after, 1.2))
        self.assertGreaterEqual(seconds, 1.2)
        self.assertTrue(is_within(seconds, 1.2 + SOON), seconds)

    def test_what_can_have_been_missed_wakes(self) -> None:
        """Changes that etcd has compacted, and a revision that etcd has not reached: it was
        restored."""
        after = self.revision()
        put(self.endpoint, PREFIX + "a")
        newest = self.revision()
        self.assert_woken(newest + 5)
        put(self.endpoint, PREFIX + "a")
        asked(self.endpoint, "/v3/kv/compaction", {"revision": str(newest + 1)})
        self.assert_woken(after)

    def test_no_watch_is_left_behind(self) -> None:
        after = self.revision()
        for _ in range(5):
            self.store.wait(after, 0.2)

        def watchers() -> float:
            with urllib.request.urlopen(
                f"http://{self.endpoint}/metrics", timeout=TIMEOUT
            ) as response:
                lines = response.read().decode().splitlines()
            return float(
                next(
                    line.split()[1]
                    for line in lines
                    if line.startswith("etcd_debugging_mvcc_watcher_total ")
                )
            )

        self.assertTrue(comes(lambda: watchers() == 0, 10), watchers())


class Away(unittest.TestCase):
    """An etcd of one member that crashes, is restored, is replaced, and is full."""

    def setUp(self) -> None:
        if not PROGRAM:
            self.skipTest(MISSING)
        self.cluster = Cluster(1, ["--quota-backend-bytes=8000000"])
        self.addCleanup(self.cluster.remove)
        self.endpoint = self.cluster.endpoints[0]
        self.store = store_at(self.endpoint)
        self.store.write([], {"a": "1"})
        self.data = self.cluster.folder / "m0"

    def test_a_crash_is_a_fault_and_no_end(self) -> None:
        lease = self.store.grant(60)
        self.cluster.members[0].kill()
        for call in (
            self.store.read,
            lambda: self.store.write([], {"a": "2"}),
            lambda: self.store.grant(3),
            lambda: self.store.refresh(lease),
            lambda: self.store.revoke(lease),
        ):
            self.assertIn(f"{self.endpoint}: Connection refused", fault_of(call))
        self.assertIn("Connection refused", fault_of(lambda: self.store.wait(1, LONG)))
        self.cluster.start()
        self.assertEqual(self.store.read().keys["a"].value, "1")
        self.assertGreater(self.store.refresh(lease), 0)

    def test_a_backup_that_was_restored_is_told_once(self) -> None:
        """The backup has the same id of the cluster: it is a copy of the folder."""
        self.cluster.end()
        shutil.copytree(self.data, self.cluster.folder / "backup")
        self.cluster.start()
        for number in range(5):
            self.store.write([], {"a": str(number)})
        before = self.store.read()
        self.cluster.end()
        shutil.rmtree(self.data)
        (self.cluster.folder / "backup").rename(self.data)
        self.cluster.start()
        self.assertEqual(
            fault_of(self.store.read),
            "etcd was restored from a backup: its revision was "
            f"{before.revision}, and is {before.revision - 5} now",
        )
        after = self.store.read()
        self.assertEqual((after.keys["a"].value, after.cluster), ("1", before.cluster))
        self.assertIsNotNone(self.store.write([], {"a": "2"}))

    def test_another_cluster_is_told_once(self) -> None:
        before = self.store.read().cluster
        self.cluster.end()
        shutil.rmtree(self.data)
        self.cluster.start("another")
        told = fault_of(self.store.read)
        self.assertIn("etcd is another cluster than before, restored from a backup or new", told)
        self.assertIn(f"and not for {before}", told)
        after = self.store.read()
        self.assertEqual(after.keys, {})
        self.assertNotEqual(after.cluster, before)
        self.assertIsNotNone(self.store.write([], {"a": "2"}))

    def test_a_write_to_another_cluster_is_a_fault(self) -> None:
        self.cluster.end()
        shutil.rmtree(self.data)
        self.cluster.start("another")
        self.assertIn(
            "it answers for the cluster", fault_of(lambda: self.store.write([], {"a": "2"}))
        )
        self.assertIn("etcd is another cluster than before", fault_of(self.store.read))

    def test_a_full_etcd(self) -> None:
        for number in range(40):
            if "error" in put(self.endpoint, f"/fill/{number}", "x" * 1_000_000):
                break
        self.assertEqual(
            fault_of(lambda: self.store.write([], {"a": "2"})),
            "etcd is full: etcdserver: mvcc: database space exceeded; "
            "free its space, then disarm its alarm",
        )
        self.assertEqual(self.store.read().keys["a"].value, "1")
        asked(
            self.endpoint,
            "/v3/kv/deleterange",
            {"key": in_base64("/fill/"), "range_end": in_base64("/fill0")},
        )
        asked(
            self.endpoint,
            "/v3/kv/compaction",
            {"revision": str(self.store.read().revision), "physical": True},
        )
        asked(self.endpoint, "/v3/maintenance/defragment", {})
        listed = asked(self.endpoint, "/v3/maintenance/alarm", {"action": "GET"})["alarms"]
        for alarm in listed if isinstance(listed, list) else []:
            asked(self.endpoint, "/v3/maintenance/alarm", {**dict(alarm), "action": "DEACTIVATE"})
        self.assertTrue(comes(lambda: self.store.write([], {"a": "2"}) is not None))


def write_in_time(store: Store, value: str) -> bool:
    """Whether a write is carried out at a time that comes soon: members that have lost their leader
    elect another one first."""

    def is_written() -> bool:
        try:
            return store.write([], {"a": value}) is not None
        except StoreError:
            return False

    return comes(is_written)


def is_read(store: Store) -> bool:
    """Whether a read is answered now."""
    try:
        store.read()
    except StoreError:
        return False
    return True


class OnThree(WithCluster):
    """A store on three members. Each test leaves all of them running."""

    COUNT = 3

    def setUp(self) -> None:
        for member in self.cluster.members:
            member.go_on()
            if member.process and member.process.poll() is not None:
                self.cluster.start_member(self.cluster.members.index(member))
        self.cluster.wait()

    def test_an_endpoint_that_refuses_is_left(self) -> None:
        store = store_at(port_that_refuses(), *self.cluster.endpoints)
        before = store.read()
        self.assertIsNotNone(store.write([], {"a": "1"}))
        self.assertEqual(store.read().revision, before.revision + 1)

    def test_an_endpoint_that_is_silent_is_left_once(self) -> None:
        store = store_at(*self.cluster.endpoints, timeout=6.0)
        store.read()
        self.cluster.members[0].stop()
        self.assertGreater(seconds_of(store.read), 1.5, "the silent one has a share of the time")
        self.assertTrue(comes(lambda: seconds_of(store.read) < 1.0))
        self.assertIsNotNone(store.write([], {"a": "2"}))
        after = store.read().revision
        timer = threading.Timer(
            0.3, lambda: write_in_time(store_at(*self.cluster.endpoints[1:]), "3")
        )
        timer.start()
        seconds = seconds_of(lambda: store.wait(after, LONG))
        self.assertTrue(is_within(seconds, 0.3 + SOON), seconds)
        timer.join()

    def test_a_write_to_a_silent_endpoint_is_not_sent_to_another(self) -> None:
        store = store_at(*self.cluster.endpoints, timeout=1.5)
        before = store.read().revision
        self.cluster.members[0].stop()
        told = fault_of(lambda: store.write([], {"a": "4"}))
        self.assertEqual(
            told,
            f"etcd gives no answer: {self.cluster.endpoints[0]}: it gives no answer in time; "
            "what was asked may have been done",
        )
        self.assertEqual(store_at(*self.cluster.endpoints[1:]).read().revision, before)
        self.assertTrue(write_in_time(store, "5"))

    def test_without_a_quorum(self) -> None:
        store = store_at(*self.cluster.endpoints, timeout=3.0)
        store.read()
        for member in self.cluster.members[1:]:
            member.kill()
        for call in (store.read, lambda: store.write([], {"a": "6"})):
            seconds = seconds_of(lambda call=call: fault_of(call))  # type: ignore[misc]
            self.assertTrue(is_within(seconds, 3.0 + SOON), seconds)
        alone = store_at(self.cluster.endpoints[0], timeout=20.0)
        self.assertTrue(comes(lambda: "etcdserver: no leader" in fault_of(alone.read)))
        seconds = seconds_of(lambda: fault_of(alone.read))
        self.assertTrue(
            is_within(seconds, 5.0), f"it says so at once, and not after {seconds} seconds"
        )
        self.assertIn("no leader", fault_of(lambda: alone.wait(1, 0.2)))
        for number in (1, 2):
            self.cluster.start_member(number)
        self.cluster.wait()
        self.assertIsNotNone(store.read())
        self.assertIsNotNone(store.write([], {"a": "7"}))

    def test_a_member_alone_is_passed_over(self) -> None:
        """A wait, too, goes on at a member that has a leader, after the one that it watched at was
        lost."""
        store = store_at(*self.cluster.endpoints)
        after = store.read().revision
        self.cluster.members[0].kill()
        others = store_at(*self.cluster.endpoints[1:], timeout=20.0)
        # if the leader was lost, no member has one until the others have elected it
        self.assertTrue(comes(lambda: is_read(others)))
        timer = threading.Timer(0.5, lambda: write_in_time(others, "8"))
        timer.start()
        seconds = seconds_of(lambda: store.wait(after, LONG))
        self.assertTrue(is_within(seconds, 20.0), seconds)
        timer.join()
        self.assertGreater(store.read().revision, after)

    def test_a_member_that_stops_during_a_wait_costs_time_alone(self) -> None:
        store = store_at(*self.cluster.endpoints, timeout=1.0)
        after = store.read().revision
        timer = threading.Timer(0.3, self.cluster.members[0].stop)
        timer.start()
        seconds = seconds_of(lambda: store.wait(after, 1.5))
        self.assertGreaterEqual(seconds, 1.5)
        self.assertTrue(is_within(seconds, 1.5 + SOON), seconds)
        timer.join()


if __name__ == "__main__":
    unittest.main()
