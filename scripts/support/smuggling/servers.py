"""Servers of Debian as readers: each one runs on loopback with settings in a folder of its own.

nginx, Apache, HAProxy and lighttpd forward what they read to an endpoint; gunicorn and node have an
application. Settings that judge requests are those that Debian installs, or the server's own.
"""
import contextlib
import pathlib
import re
import shutil
import subprocess
import tempfile
from collections.abc import Callable, Iterator, Sequence
from typing import NamedTuple

from support import TOP, processes
from support.checks import comes
from support.reserved import reserved
from support.smuggling.readings import Reading, case_of, reading_at, reading_of_ended

# Below the ports that the system gives to connections by itself, and below those of other scripts.
PORTS = range(9_400, 9_900)
# For how long a server says nothing before it counts as one that waits, and how long it may take to
# start, in seconds. Its own timeouts are longer than the first.
QUIET, LONGEST_START = 0.3, 15.0
FOLDER = pathlib.Path(__file__).resolve().parent
APACHE_MODULES = pathlib.Path("/usr/lib/apache2/modules")


class Place(NamedTuple):
    """Where a server runs: its folder, its port, and the endpoint behind it."""

    folder: pathlib.Path
    port: int
    endpoint: int

    def write(self, name: str, text: str) -> str:
        """Writes a file of settings, and gives its path."""
        path = self.folder / name
        path.write_text(text, encoding="ascii")
        return str(path)


def nginx(place: Place) -> list[str]:
    temporary = " ".join(
        f"{kind}_temp_path {place.folder}/{kind};"
        for kind in ("client_body", "proxy", "fastcgi", "uwsgi", "scgi")
    )
    path = place.write(
        "nginx.conf",
        f"""daemon off; worker_processes 1; pid {place.folder}/nginx.pid; error_log {place.folder}/log crit;
events {{ worker_connections 1024; }}
http {{ access_log off; {temporary} client_body_buffer_size 2m; proxy_buffer_size 32k; proxy_buffers 4 32k;
server {{ listen 127.0.0.1:{place.port}; location / {{ proxy_pass http://127.0.0.1:{place.endpoint}; }} }} }}
""",
    )
    return ["nginx", "-e", f"{place.folder}/log", "-p", str(place.folder), "-c", path]


def apache(place: Place) -> list[str]:
    modules = "".join(
        f"LoadModule {name}_module {APACHE_MODULES}/mod_{name}.so\n"
        for name in ("mpm_event", "authz_core", "proxy", "proxy_http")
    )
    path = place.write(
        "apache.conf",
        f"""{modules}ServerName web
ServerRoot {place.folder}
DefaultRuntimeDir {place.folder}
PidFile {place.folder}/apache.pid
ErrorLog {place.folder}/log
LogLevel crit
User www-data
Group www-data
Listen 127.0.0.1:{place.port}
TraceEnable off
AllowEncodedSlashes NoDecode
ProxyPreserveHost on
ProxyPass "/" "http://127.0.0.1:{place.endpoint}/" nocanon disablereuse=On
""",
    )
    return ["apache2", "-f", path, "-DFOREGROUND"]


def haproxy(place: Place) -> list[str]:
    path = place.write(
        "haproxy.cfg",
        f"""global
    maxconn 1000
defaults
    mode http
    timeout connect 5000
    timeout client 50000
    timeout server 50000
frontend web
    bind 127.0.0.1:{place.port}
    default_backend echo
backend echo
    server echo 127.0.0.1:{place.endpoint}
""",
    )
    return ["haproxy", "-db", "-q", "-f", path]


def lighttpd(place: Place) -> list[str]:
    path = place.write(
        "lighttpd.conf",
        f"""server.modules = ("mod_proxy")
server.bind = "127.0.0.1"
server.port = {place.port}
server.document-root = "{place.folder}"
server.upload-dirs = ("{place.folder}")
server.errorlog = "{place.folder}/log"
server.feature-flags += ("server.h2proto" => "enable", "server.h2c" => "enable")
server.http-parseopts = ("header-strict" => "enable", "host-strict" => "enable", "host-normalize" => "enable",
    "url-normalize-unreserved" => "enable", "url-normalize-required" => "enable", "url-ctrls-reject" => "enable",
    "url-path-2f-decode" => "enable", "url-path-dotseg-remove" => "enable")
proxy.server = ("" => (("host" => "127.0.0.1", "port" => {place.endpoint})))
""",
    )
    return ["lighttpd", "-D", "-f", path]


def gunicorn(place: Place) -> list[str]:
    """Its own kind of worker takes one request of a connection; the one with threads takes
    more."""
    words = ["--bind", f"127.0.0.1:{place.port}", "--worker-class", "gthread", "--threads", "24"]
    words += ["--keep-alive", "5", "--log-level", "critical", "--chdir", str(FOLDER)]
    return ["gunicorn", *words, "read_by_gunicorn:application"]


def node(place: Place) -> list[str]:
    path = place.write("read_by_node.mjs", (FOLDER / "read_by_node.js").read_text(encoding="ascii"))
    return ["node", path, str(place.port)]


class Kind(NamedTuple):
    """A server that may be installed: what starts it, the word for its version, and whether it
    looks at requests behind one another only when more comes."""

    package: str
    command: Callable[[Place], list[str]]
    version: str
    ends_input: bool = False


KINDS = {
    "nginx": Kind("nginx", nginx, "-v"),
    "apache2": Kind("apache2", apache, "-v"),
    "haproxy": Kind("haproxy", haproxy, "-v"),
    "lighttpd": Kind("lighttpd", lighttpd, "-v"),
    "gunicorn": Kind("gunicorn", gunicorn, "--version", ends_input=True),
    "node": Kind("nodejs", node, "--version"),
}


def program_of(name: str) -> str | None:
    """Where the program of a server is; root's programs may stand off the path of a user."""
    return shutil.which(name) or shutil.which(name, path="/usr/sbin:/sbin")


def missing(names: Sequence[str]) -> list[str]:
    return [name for name in names if program_of(name) is None]


def version_of(name: str) -> str:
    run = processes.run_to_end([program_of(name) or name, KINDS[name].version])
    found = re.search(r"\d+\.\d+(?:\.\d+)?", run.printed + run.told)
    return found[0] if found else "?"


class Server(NamedTuple):
    """A running server as a reader."""

    name: str
    port: int
    quiet: float
    ends_input: bool

    def read(self, stream: bytes, last: bytes, patience: float = 1.0) -> Reading:
        if self.ends_input:
            return reading_of_ended(self.port, stream, max(10.0, self.quiet * patience))
        return reading_at(self.port, stream, last, self.quiet * patience)

    def is_up(self) -> bool:
        """Whether it reads two plain requests."""
        case = case_of(b"", 0, 2)
        try:
            reading = self.read(case.stream, case.last)
        except OSError:
            return False
        targets = [item.target for item in reading.items if not isinstance(item, int)]
        return targets == list(case.followers)


@contextlib.contextmanager
def running(name: str, endpoint: int, quiet: float) -> Iterator[Server]:
    """A server, until the end of the block. One that does not start is an error."""
    kind = KINDS[name]
    with tempfile.TemporaryDirectory(prefix=f"bg_{name}_") as folder:
        # its workers may run as another user
        pathlib.Path(folder).chmod(0o755)
        place = Place(pathlib.Path(folder), reserved(PORTS), endpoint)
        words = kind.command(place)
        process = subprocess.Popen(
            [program_of(words[0]) or words[0], *words[1:]],
            stdin=subprocess.DEVNULL,
            stdout=subprocess.DEVNULL,
            stderr=subprocess.DEVNULL,
            cwd=TOP,
        )
        try:
            server = Server(name, place.port, quiet, kind.ends_input)
            if not comes(server.is_up, LONGEST_START):
                raise RuntimeError(f"{name} reads no plain requests: {log_of(place)}")
            yield server
        finally:
            processes.end(process)


def log_of(place: Place) -> str:
    path = place.folder / "log"
    return path.read_text(encoding="utf-8", errors="replace") if path.exists() else "no log"
