"""Who may use a real etcd: users with passwords and roles, and clients with certificates."""
import contextlib
import pathlib
import shutil
import socket
import ssl
import tempfile
import threading
import time
import unittest

from bg_switch_tools.fleet.store.etcd import EtcdStore
from bg_switch_tools.fleet.store.store import Compare
from bg_switch_tools.fleet.store.store_endpoints import StoreEndpoint
from bg_switch_tools.fleet.store.tls_files import TlsFiles
from support.clients import reset
from support.pace import is_within
from tests.real_etcd import (
    MISSING,
    NO_OPENSSL,
    OPENSSL,
    PROGRAM,
    Certificates,
    Cluster,
    WithCluster,
    asked,
    in_base64,
)
from tests.store_checks import PREFIX, fault_of, seconds_of, store_at
from tests.tool_runs import WAIT, comes

SOON = 3.0  # seconds within which a wait that is woken ends
LONG = 30.0  # seconds of a wait that is woken


def ask_for_users(endpoint: StoreEndpoint, context: ssl.SSLContext | None = None) -> None:
    """Lets an etcd ask for users from now on: `agent` may write below the prefix alone. Its
    password is `hidden`."""
    below = {
        "permType": "READWRITE",
        "key": in_base64(PREFIX),
        "range_end": in_base64("/bg-switch/web0"),
    }
    calls: list[tuple[str, dict[str, object]]] = [
        ("user/add", {"name": "root", "password": "secret"}),
        ("user/grant", {"user": "root", "role": "root"}),
        ("user/add", {"name": "agent", "password": "hidden"}),
        ("role/add", {"name": "fleet"}),
        ("role/grant", {"name": "fleet", "perm": below}),
        ("user/grant", {"user": "agent", "role": "fleet"}),
        ("enable", {}),
    ]
    for path, message in calls:
        answer = asked(endpoint, f"/v3/auth/{path}", message, context)
        if "error" in answer:
            raise AssertionError(f"{path}: {answer}")


def reset_each(server: socket.socket) -> None:
    """Resets each connection that a server gets, after its first bytes."""
    with contextlib.suppress(OSError):
        while True:
            connection, _ = server.accept()
            connection.recv(1)
            reset(connection)


class WithUsers(WithCluster):
    """An etcd that asks for users."""

    WORDS = ("--auth-token-ttl=2", "--bcrypt-cost=4")

    @classmethod
    def setUpClass(cls) -> None:
        super().setUpClass()
        ask_for_users(cls.cluster.endpoints[0])

    def setUp(self) -> None:
        folder = tempfile.TemporaryDirectory()
        self.addCleanup(folder.cleanup)
        self.password = pathlib.Path(folder.name, "password")
        self.password.write_text("hidden\n", encoding="ascii")
        self.endpoint = self.cluster.endpoints[0]
        self.store = store_at(self.endpoint, user="agent", password_file=str(self.password))

    def test_every_call(self) -> None:
        lease = self.store.grant(60)
        revision = self.store.write([Compare("leader", "created", 0)], {"leader": "a"}, (), lease)
        snapshot = self.store.read()
        self.assertEqual((snapshot.keys["leader"].value, snapshot.revision), ("a", revision))
        self.assertGreater(self.store.refresh(lease), 0)
        self.assertIn(self.store.seconds_left(lease), range(50, 61))
        self.store.wait(snapshot.revision - 1, LONG)
        self.assertGreaterEqual(seconds_of(lambda: self.store.wait(snapshot.revision, 0.5)), 0.5)
        self.store.revoke(lease)
        self.assertNotIn("leader", self.store.read().keys)

    def test_a_token_that_has_expired_is_asked_for_again(self) -> None:
        """Also by a write, which is carried out once."""
        before = self.store.read().revision
        time.sleep(4.5)
        self.assertEqual(self.store.write([], {"a": "1"}), before + 1)
        self.assertEqual(self.store.read().keys["a"].changed, before + 1)
        self.cluster.end()
        self.cluster.start()  # a member that starts knows no token
        self.assertTrue(comes(lambda: self.store.read().revision == before + 1))

    def test_wrong_users(self) -> None:
        for user, path, told in (
            ("", "", "etcd asks for a user and a password, and none are set"),
            (
                "agent",
                "/absent/file",
                "the password of etcd's user can't be read from /absent/file: No such file",
            ),
            ("nobody", str(self.password), "etcd refuses this: etcdserver: authentication failed"),
        ):
            with self.subTest(told):
                self.assertIn(
                    told, fault_of(store_at(self.endpoint, user=user, password_file=path).read)
                )
        self.password.write_text("wrong", encoding="ascii")
        self.assertIn("authentication failed", fault_of(self.store.read))
        self.assertNotIn("wrong", fault_of(self.store.read))
        self.password.write_text("hidden", encoding="ascii")
        self.assertIsNotNone(self.store.read())

    def test_what_the_user_may_not_do(self) -> None:
        other = store_at(
            self.endpoint, user="agent", password_file=str(self.password), fleet="other"
        )
        for call in (other.read, lambda: other.write([], {"a": "1"})):
            self.assertEqual(
                fault_of(call), "etcd denies this to the user agent: etcdserver: permission denied"
            )
        self.assertIn("it ends the watch", fault_of(lambda: other.wait(0, 0.3)))


class WithTls(unittest.TestCase):
    """An etcd that takes only clients with a certificate of its authority."""

    folder: pathlib.Path
    good: Certificates
    other: Certificates
    cluster: Cluster
    endpoint: StoreEndpoint

    @classmethod
    def setUpClass(cls) -> None:
        if not PROGRAM:
            raise unittest.SkipTest(MISSING)
        if not OPENSSL:
            raise unittest.SkipTest(NO_OPENSSL)
        folder = tempfile.TemporaryDirectory()
        cls.addClassCleanup(folder.cleanup)
        cls.folder = pathlib.Path(folder.name)
        (cls.folder / "other").mkdir()
        cls.good, cls.other = Certificates(cls.folder), Certificates(cls.folder / "other")
        cls.good.sign("server", "IP:127.0.0.1")
        cls.good.sign("client", "DNS:client")
        cls.other.sign("client", "DNS:client")
        context = ssl.create_default_context(cafile=cls.good.path("ca.pem"))
        context.load_cert_chain(cls.good.path("client.pem"), cls.good.path("client.key"))
        cls.cluster = Cluster(
            1,
            [
                "--cert-file",
                cls.good.path("server.pem"),
                "--key-file",
                cls.good.path("server.key"),
                "--client-cert-auth",
                "--trusted-ca-file",
                cls.good.path("ca.pem"),
            ],
            "https",
            context,
        )
        cls.addClassCleanup(cls.cluster.remove)
        cls.endpoint = cls.cluster.endpoints[0]

    def files(self, authority: Certificates, client: Certificates) -> TlsFiles:
        return TlsFiles(
            authority.path("ca.pem"), client.path("client.pem"), client.path("client.key")
        )

    def test_every_call(self) -> None:
        store = store_at(self.endpoint, tls=self.files(self.good, self.good))
        lease = store.grant(60)
        revision = store.write([Compare("a", "created", 0)], {"a": "x" * 1_000_000}, (), lease) or 0
        self.assertEqual(store.read().keys["a"].changed, revision)
        seconds = seconds_of(lambda: store.wait(revision - 1, LONG))
        self.assertTrue(is_within(seconds, SOON), seconds)
        self.assertGreaterEqual(seconds_of(lambda: store.wait(revision, 0.5)), 0.5)
        self.assertGreater(store.refresh(lease), 0)
        store.revoke(lease)
        self.assertEqual(store.read().keys, {})

    def test_who_is_refused(self) -> None:
        missing = TlsFiles(self.good.path("absent.pem"))
        mixed = TlsFiles(
            self.good.path("ca.pem"), self.good.path("client.pem"), self.good.path("server.key")
        )
        for name, files, told in (
            (
                "another authority",
                self.files(self.other, self.good),
                "its certificate is not accepted: unable to get local issuer",
            ),
            ("the system's authorities", TlsFiles(), "its certificate is not accepted"),
            ("no certificate", TlsFiles(self.good.path("ca.pem")), "TLS fails: "),
            ("another client", self.files(self.good, self.other), "TLS fails: "),
            ("no TLS", None, "it closes the connection without an answer"),
            (
                "a file that is not there",
                missing,
                f"{missing.ca} can't be read: No such file or directory",
            ),
            ("a certificate without its key", mixed, "are not a certificate and its key"),
        ):
            with self.subTest(name):
                self.assertIn(told, fault_of(store_at(self.endpoint, tls=files).read))

    def test_another_host_is_refused(self) -> None:
        """The certificate is for the address alone."""
        store = store_at(
            StoreEndpoint("localhost", self.endpoint.port), tls=self.files(self.good, self.good)
        )
        self.assertIn("its certificate is not accepted: Hostname mismatch", fault_of(store.read))

    def test_tls_to_a_server_without_it(self) -> None:
        plain = Cluster(1)
        self.addCleanup(plain.remove)
        self.assertIn(
            "TLS fails: ",
            fault_of(store_at(plain.endpoints[0], tls=self.files(self.good, self.good)).read),
        )

    def test_a_server_that_resets_the_handshake(self) -> None:
        with socket.create_server(("127.0.0.1", 0)) as server:
            thread = threading.Thread(target=reset_each, args=(server,), daemon=True)
            thread.start()
            endpoint = StoreEndpoint("127.0.0.1", server.getsockname()[1])
            told = fault_of(store_at(endpoint, tls=self.files(self.good, self.good)).read)
            server.shutdown(socket.SHUT_RDWR)
        thread.join(WAIT)
        self.assertIn("TLS fails: it closes the connection in the handshake", told)

    def test_files_that_are_replaced_are_read_again(self) -> None:
        files = TlsFiles(*(str(self.folder / name) for name in ("now.ca", "now.pem", "now.key")))
        for path, given in zip(files, self.files(self.good, self.other)):
            shutil.copy(given, path)
        store = store_at(self.endpoint, tls=files)
        self.assertIn("TLS fails: ", fault_of(store.read))
        for path, given in zip(files, self.files(self.good, self.good)):
            shutil.copy(given, path)
        self.assertEqual(store.read().keys, {})


class WithTlsAndUsers(unittest.TestCase):
    """An etcd that asks for users, and for certificates."""

    def setUp(self) -> None:
        if not PROGRAM:
            self.skipTest(MISSING)
        if not OPENSSL:
            self.skipTest(NO_OPENSSL)
        folder = tempfile.TemporaryDirectory()
        self.addCleanup(folder.cleanup)
        self.certificates = Certificates(pathlib.Path(folder.name))
        self.certificates.sign("server", "IP:127.0.0.1", "/CN=root")
        self.certificates.sign("unnamed", "DNS:web-1", "/")
        self.certificates.sign("named", "DNS:web-1", "/CN=root")
        self.password = pathlib.Path(folder.name, "password")
        self.password.write_text("hidden", encoding="ascii")
        context = ssl.create_default_context(cafile=self.certificates.path("ca.pem"))
        context.load_cert_chain(
            self.certificates.path("unnamed.pem"), self.certificates.path("unnamed.key")
        )
        self.cluster = Cluster(
            1,
            [
                "--cert-file",
                self.certificates.path("server.pem"),
                "--key-file",
                self.certificates.path("server.key"),
                "--client-cert-auth",
                "--trusted-ca-file",
                self.certificates.path("ca.pem"),
                "--bcrypt-cost=4",
            ],
            "https",
            context,
        )
        self.addCleanup(self.cluster.remove)
        ask_for_users(self.cluster.endpoints[0], context)

    def store(self, name: str, user: str, fleet: str = "web") -> EtcdStore:
        """The store as the client with this certificate and this user has it."""
        path = self.certificates.path
        return store_at(
            self.cluster.endpoints[0],
            tls=TlsFiles(path("ca.pem"), path(f"{name}.pem"), path(f"{name}.key")),
            user=user,
            password_file=str(self.password) if user else "",
            fleet=fleet,
        )

    def test_both_together(self) -> None:
        store = self.store("unnamed", "agent")
        revision = store.write([Compare("a", "created", 0)], {"a": "1"}) or 0
        self.assertEqual(store.read().keys["a"].changed, revision)
        seconds = seconds_of(lambda: store.wait(revision - 1, LONG))
        self.assertTrue(is_within(seconds, SOON), seconds)
        self.assertIn(
            "etcd denies this to the user agent",
            fault_of(self.store("unnamed", "agent", "other").read),
        )

    def test_a_certificate_is_no_user(self) -> None:
        """Neither that of the client nor that of etcd itself, which here has the name of a user who
        may do everything."""
        self.assertEqual(
            fault_of(self.store("unnamed", "").read),
            "etcd asks for a user and a password, and none are set",
        )
        for user in ("", "agent"):
            self.assertEqual(
                fault_of(self.store("named", user).read),
                "etcd asks for users, and takes no client certificate with a common "
                "name then: use one without",
            )


if __name__ == "__main__":
    unittest.main()
