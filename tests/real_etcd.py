"""Real members of etcd at ports of 127.0.0.1, their certificates, and calls of them that use none
of the tools' code."""
import base64
import json
import pathlib
import shutil
import signal
import ssl
import subprocess
import tempfile
import unittest
import urllib.error
import urllib.request
from collections.abc import Mapping, Sequence

from bg_switch_tools.fleet.store.store_endpoints import StoreEndpoint
from support import processes
from tests.fake_port import free_port
from tests.tool_runs import WAIT, comes

HOST = "127.0.0.1"
PROGRAM = shutil.which("etcd")
MISSING = "etcd is not installed: apt-get install etcd-server to run this test"
SETPRIV = shutil.which("setpriv")
# A member ends with the process that has started it, even if that is killed.
TIED = (SETPRIV, "--pdeathsig", "KILL") if SETPRIV else ()
# With these, an election takes a fifth of a second.
FAST = (
    "--heartbeat-interval=20",
    "--election-timeout=200",
    "--log-level=error",
    "--logger=zap",
    "--log-outputs=stderr",
)
Json = Mapping[str, object]


def in_base64(text: str) -> str:
    return base64.b64encode(text.encode()).decode()


def asked(
    endpoint: StoreEndpoint, path: str, message: Json, context: ssl.SSLContext | None = None
) -> dict[str, object]:
    """What etcd answers to a call, also to one that it refuses. With a context, the connection has
    TLS."""
    request = urllib.request.Request(
        f"{'https' if context else 'http'}://{endpoint}{path}", json.dumps(message).encode()
    )
    try:
        with urllib.request.urlopen(request, timeout=WAIT, context=context) as response:
            answer: dict[str, object] = json.load(response)
    except urllib.error.HTTPError as error:
        answer = json.load(error)
    return answer


def put(endpoint: StoreEndpoint, key: str, value: str = "") -> dict[str, object]:
    return asked(endpoint, "/v3/kv/put", {"key": in_base64(key), "value": in_base64(value)})


class Member:
    """A member of a cluster. It can be killed, started again, stopped and let go on."""

    def __init__(
        self, folder: pathlib.Path, name: str, words: Sequence[str], scheme: str = "http"
    ) -> None:
        self.folder, self.name, self.words, self.scheme = folder, name, words, scheme
        self.endpoint, self.peer = StoreEndpoint(HOST, free_port()), f"http://{HOST}:{free_port()}"
        self.process: subprocess.Popen[bytes] | None = None

    def start(self, members: str, token: str = "test") -> None:
        """Starts it, in a cluster of these members, as etcd names them."""
        url = f"{self.scheme}://{self.endpoint}"
        words = [
            *TIED,
            PROGRAM or "etcd",
            "--name",
            self.name,
            "--data-dir",
            str(self.folder / self.name),
            "--listen-client-urls",
            url,
            "--advertise-client-urls",
            url,
            "--listen-peer-urls",
            self.peer,
            "--initial-advertise-peer-urls",
            self.peer,
            "--initial-cluster",
            members,
            "--initial-cluster-token",
            token,
            *FAST,
            *self.words,
        ]
        with open(self.folder / f"{self.name}.log", "ab") as log:
            self.process = subprocess.Popen(words, stdin=subprocess.DEVNULL, stdout=log, stderr=log)

    def kill(self) -> None:
        """Ends it as a crash does."""
        if self.process:
            self.process.kill()
            self.process.wait(WAIT)

    def end(self) -> None:
        """Lets it end by itself, even if it is stopped."""
        if self.process:
            self.process.send_signal(signal.SIGCONT)
            processes.end(self.process, WAIT)

    def stop(self) -> None:
        """Stops it: the system still takes connections for it, and nobody reads them."""
        if self.process:
            processes.pause(self.process.pid)

    def go_on(self) -> None:
        self._signal(signal.SIGCONT)

    def _signal(self, number: signal.Signals) -> None:
        if self.process:
            self.process.send_signal(number)

    @property
    def log(self) -> str:
        return (self.folder / f"{self.name}.log").read_text(encoding="utf-8", errors="replace")


class Cluster:
    """A cluster of `count` members in a temporary folder, which all take requests."""

    def __init__(
        self,
        count: int,
        words: Sequence[str] = (),
        scheme: str = "http",
        context: ssl.SSLContext | None = None,
    ) -> None:
        self.folder = pathlib.Path(tempfile.mkdtemp(prefix="bg-etcd-"))
        self.context = context
        self.members = [Member(self.folder, f"m{number}", words, scheme) for number in range(count)]
        try:
            self.start()
        except BaseException:
            self.remove()
            raise

    @property
    def endpoints(self) -> tuple[StoreEndpoint, ...]:
        return tuple(member.endpoint for member in self.members)

    def start(self, token: str = "test") -> None:
        """Starts all members, and waits until they have a leader."""
        names = ",".join(f"{member.name}={member.peer}" for member in self.members)
        for member in self.members:
            member.start(names, token)
        self.wait()

    def start_member(self, number: int) -> None:
        """Starts a member that was killed."""
        self.members[number].start(
            ",".join(f"{member.name}={member.peer}" for member in self.members)
        )

    def wait(self) -> None:
        """Waits until each member knows a leader."""
        for member in self.members:
            if not comes(lambda member=member: self._is_healthy(member)):  # type: ignore[misc]
                raise TimeoutError(f"etcd does not start: {member.log}")

    def _is_healthy(self, member: Member) -> bool:
        try:
            with urllib.request.urlopen(
                f"{member.scheme}://{member.endpoint}/health", timeout=2, context=self.context
            ) as response:
                return bool(json.load(response).get("health") == "true")
        except (OSError, ValueError):
            return False

    def end(self) -> None:
        """Ends all members in peace, as before a backup."""
        for member in self.members:
            member.end()

    def remove(self) -> None:
        for member in self.members:
            member.kill()
        shutil.rmtree(self.folder, ignore_errors=True)


class WithCluster(unittest.TestCase):
    """Tests on one cluster, which starts with the first of them. The words are further ones of its
    members."""

    COUNT = 1
    WORDS: Sequence[str] = ()
    cluster: Cluster

    @classmethod
    def setUpClass(cls) -> None:
        if not PROGRAM:
            raise unittest.SkipTest(MISSING)
        cls.cluster = Cluster(cls.COUNT, cls.WORDS)
        cls.addClassCleanup(cls.cluster.remove)


def port_that_refuses() -> StoreEndpoint:
    """An endpoint at which nothing listens."""
    return StoreEndpoint(HOST, free_port())


# ---- certificates ----

OPENSSL = shutil.which("openssl")
NO_OPENSSL = "openssl is not installed: apt-get install openssl to run this test"


class Certificates:
    """Certificates that openssl makes in a folder: an authority, and those that it signs."""

    def __init__(self, folder: pathlib.Path) -> None:
        self.folder = folder
        self._run(
            "req",
            "-x509",
            *self._new_key("ca"),
            "-out",
            self.path("ca.pem"),
            "-days",
            "2",
            "-subj",
            "/CN=authority",
        )

    def path(self, name: str) -> str:
        return str(self.folder / name)

    def _new_key(self, name: str) -> tuple[str, ...]:
        return (
            "-newkey",
            "ec",
            "-pkeyopt",
            "ec_paramgen_curve:prime256v1",
            "-nodes",
            "-keyout",
            self.path(f"{name}.key"),
        )

    def sign(self, name: str, alternative: str, subject: str = "/CN=bg") -> None:
        """Makes NAME.pem and NAME.key, a certificate for this alternative name. A subject of `/`
        has no name."""
        (self.folder / "extensions").write_text(f"subjectAltName={alternative}\n", encoding="ascii")
        self._run("req", *self._new_key(name), "-out", self.path("request"), "-subj", subject)
        self._run(
            "x509",
            "-req",
            "-in",
            self.path("request"),
            "-CA",
            self.path("ca.pem"),
            "-CAkey",
            self.path("ca.key"),
            "-CAcreateserial",
            "-out",
            self.path(f"{name}.pem"),
            "-days",
            "2",
            "-extfile",
            self.path("extensions"),
        )

    @staticmethod
    def _run(*words: str) -> None:
        subprocess.run(
            [OPENSSL or "openssl", *words], check=True, capture_output=True, timeout=WAIT
        )
