"""examples/production with other ports and paths: nginx before a running `serve`, and its unit's
commands. What clients are answered is compared with what they are answered by the same nginx
without the switch. Skipped if nginx or openssl isn't installed. scripts/package.sh runs the units'
commands as they are, from the installed package."""
import contextlib
import http.client
import os
import pathlib
import re
import shutil
import socket
import ssl
import stat
import subprocess
import sys
import tempfile
from functools import partial
from typing import NamedTuple

from support import TOP, checks, processes
from support.checks import check, comes
from support.clients import connect
from support.endpoints import Endpoint, Request, by_target
from support.messages import LARGEST_BODY, ROLLOUT
from support.ports import free_port, is_open
from support.switch import LISTENING, Switch, words_of_serve
from support.units import placed, values

EXAMPLE = TOP / "examples" / "production"
NAME, PREVIEW_NAME, UNKNOWN_NAME = "web.example", "preview.web.example", "other.example"
# The ports and the control socket that the example has.
ACTIVE, PREVIEW, CONTROL = 8080, 8081, "/run/bg-switch/control"
JOURNAL = ("--journal", "/var/lib/bg-switch/journal")
SOCKET = ("--control-socket-mode", "660", "--control-socket-group", "bg-operators")
# Bytes of a body that is above what the switch holds, and of the largest one of web.conf.
UPLOAD, MOST_BODY = 3 << 20, 16 << 20
STREAM = ("--stream", "--max-request-body", str(MOST_BODY))
CONCURRENCY = ("--concurrency", "255", "--keep-alive", *STREAM, "--upgrade", "--redispatch")
DESCRIPTORS = 8192
SOON = 60
# A user without rights, who runs the commands of the stop if this script is run by root.
OTHER_USER, OTHER_GROUP = "nobody", "nogroup"
LAST_CHANGE, AT_LAST_CHANGE = 1000000000, "Sun, 09 Sep 2001 01:46:40 GMT"
PAGES = {
    "index.html": b"<p>hello</p>\n" * 100,
    "page.txt": b"hello\n" * 1000,
    "data.json": b"[1, 2, 3]\n" * 500,
    "big.bin": b"x" * 9000000,
    "folder/index.html": b"folder",
}
UNITS = ("bg-switch.service", "bg-controller.service", "bg-dashboard.service")
# Without the lines that harden it, a unit has an exposure above 8.
MOST_EXPOSED = 1.9
# Fields that tell how a message is carried: the switch sends each response by its length, and knows
# it.
CARRIED = ("date", "connection", "content-length", "transfer-encoding")


class Case(NamedTuple):
    """A request, and the status that is expected."""

    status: int
    target: str
    method: str = "GET"
    fields: dict[str, str] = {}
    body: bytes | None = None
    is_chunked: bool = False


GZIP = {"Accept-Encoding": "gzip"}
CASES = {
    "a page": Case(200, "/"),
    "a page that is compressed": Case(200, "/page.txt", fields=GZIP),
    "JSON that is compressed": Case(200, "/data.json", fields=GZIP),
    "a page that is compressed for another proxy": Case(
        200, "/page.txt", fields={**GZIP, "Via": "1.1 cdn"}
    ),
    "a page for which HEAD asks": Case(200, "/page.txt", "HEAD"),
    "a part of a page": Case(206, "/page.txt", fields={"Range": "bytes=10-19"}),
    "a page that hasn't changed": Case(
        304, "/page.txt", fields={"If-Modified-Since": AT_LAST_CHANGE}
    ),
    "a page with a query": Case(200, "/page.txt?a=%20b&c=d%2Fe"),
    "a redirect": Case(301, "/folder"),
    "a page that isn't there": Case(404, "/none"),
    "a method that isn't allowed": Case(405, "/page.txt", "DELETE"),
    "a file of 9 MB": Case(200, "/big.bin"),
    "the largest body": Case(200, "/echo", "POST", body=bytes(LARGEST_BODY)),
    "a body in chunks": Case(200, "/echo", "POST", body=b"body" * 9000, is_chunked=True),
    "a body after 100 Continue": Case(200, "/echo", "POST", {"Expect": "100-continue"}, b"body"),
    "an upload": Case(200, "/echo", "POST", body=bytes(UPLOAD)),
    "an upload in chunks": Case(200, "/echo", "POST", body=bytes(UPLOAD), is_chunked=True),
    "a body that is too large": Case(413, "/echo", "POST", body=bytes(MOST_BODY + 1)),
    "long fields": Case(200, "/page.txt", fields={"Cookie": "c" * 6900, "X-Long": "x" * 6900}),
    "fields that are too long": Case(
        400, "/page.txt", fields={name: "x" * 6900 for name in ("Cookie", "X-A", "X-B")}
    ),
    "fields that clients forge": Case(
        200,
        "/all-fields",
        fields={
            "X-Forwarded-For": "10.0.0.1",
            "Forwarded": "for=10.0.0.1",
            "X-Real-IP": "10.0.0.1",
            "X-Forwarded-Proto": "http",
        },
    ),
}


class Reply(NamedTuple):
    """What a client is answered, without the fields that tell how it is carried."""

    status: int
    fields: dict[str, str]
    body: bytes


class Nginx:
    """A running nginx, with one file of the example."""

    def __init__(self, folder: pathlib.Path, name: str, text: str) -> None:
        kinds = ("client_body", "proxy", "fastcgi", "uwsgi", "scgi")
        temporary = "".join(f"{kind}_temp_path {folder}/{name}.{kind}; " for kind in kinds)
        user = "user root; " if os.geteuid() == 0 else ""
        configuration = folder / f"{name}.nginx"
        configuration.write_text(
            f"{user}daemon off; pid {folder}/{name}.pid; error_log {folder}/{name}.log;\n"
            f"events {{ worker_connections 1024; }}\n"
            f"http {{ access_log off; {temporary}\n"
            f"types {{ text/html html; text/plain txt; application/json json; application/octet-stream bin; }}\n"
            f"{text}\n}}\n",
            encoding="ascii",
        )
        words = [
            "nginx",
            "-p",
            str(folder),
            "-e",
            str(folder / f"{name}.log"),
            "-c",
            str(configuration),
        ]
        self.process = subprocess.Popen(words, text=True)
        processes.limit(self.process)

    def end(self) -> None:
        """Ends it with its workers."""
        processes.end(self.process, SOON)


class NginxSetup:
    """An endpoint, the switch before it, and nginx before the switch and, to compare, before the
    endpoint itself."""

    def __init__(self, folder: pathlib.Path) -> None:
        self.folder = folder
        self.endpoint, self.front, self.plain_front = free_port(), free_port(), free_port()
        self.switch = Switch(
            ROLLOUT,
            instead_of_workers=CONCURRENCY,
            descriptors=DESCRIPTORS,
            path=str(folder / "control"),
            flags=("--control-socket-mode", "666"),
        )
        check("listening", self.switch.first, LISTENING)
        write_pages(folder / "pages")
        make_certificate(folder)
        (folder / "switch.conf").write_text(placed(EXAMPLE / "switch.conf", {}), encoding="ascii")
        self.servers = [
            Nginx(folder, "endpoint", self.endpoint_text()),
            Nginx(
                folder,
                "front",
                self.front_text(self.front, self.switch.active, self.switch.preview),
            ),
            Nginx(folder, "plain", self.front_text(self.plain_front, self.endpoint, self.endpoint)),
        ]
        for line in (f"open one {self.endpoint}", "available 1 1"):
            check(line, self.switch.answer_to(line), "ok 0")
        for port in (self.endpoint, self.front, self.plain_front):
            check("nginx listens", comes(partial(is_open, port)), True)
        self.context = ssl.create_default_context(cafile=folder / "web.pem")

    def endpoint_text(self) -> str:
        """The endpoint, which has pages, and tells what it was sent."""
        python = Endpoint(by_target(b"")).port
        sent = "".join(
            f"location = {target} {{ proxy_pass http://127.0.0.1:{python}; proxy_set_header Host $http_host; "
            "client_max_body_size 16m; proxy_http_version 1.1; }\n"
            for target in ("/echo", "/all-fields")
        )
        speaker = Endpoint(send_back).port
        spoken = (
            f"location = /chat {{ proxy_pass http://127.0.0.1:{speaker}; proxy_http_version 1.1; "
            'proxy_set_header Upgrade $http_upgrade; proxy_set_header Connection "upgrade"; }\n'
        )
        return placed(
            EXAMPLE / "endpoint.conf",
            {
                "127.0.0.1:9101": f"127.0.0.1:{self.endpoint}",
                "root /var/www/web;": f"root {self.folder}/pages;\n{sent}{spoken}",
            },
        )

    def front_text(self, front: int, active: int, preview: int) -> str:
        folder = self.folder
        return placed(
            EXAMPLE / "web.conf",
            {
                "listen 443": f"listen 127.0.0.1:{front}",
                f"127.0.0.1:{ACTIVE}": f"127.0.0.1:{active}",
                f"127.0.0.1:{PREVIEW}": f"127.0.0.1:{preview}",
                "/etc/nginx/switch.conf": f"{folder}/switch.conf",
                "/etc/ssl/web.pem": f"{folder}/web.pem",
                "/etc/ssl/web.key": f"{folder}/web.key",
            },
        )

    def ask(self, front: int, case: Case, name: str = NAME) -> Reply:
        """What a client of an nginx is answered over TLS."""
        connection = http.client.HTTPConnection(name)
        with self.context.wrap_socket(connect(front), server_hostname=name) as connection.sock:
            body = iter([case.body or b""]) if case.is_chunked else case.body
            connection.request(
                case.method, case.target, body, case.fields, encode_chunked=case.is_chunked
            )
            response = connection.getresponse()
            fields = {
                field.lower(): value
                for field, value in response.getheaders()
                if field.lower() not in CARRIED
            }
            return Reply(response.status, fields, response.read())

    def end(self) -> None:
        for server in self.servers:
            server.end()


def send_back(_: Request, connection: socket.socket) -> None:
    """Accepts an upgrade, and sends back what comes."""
    connection.sendall(
        b"HTTP/1.1 101 Switching Protocols\r\nUpgrade: websocket\r\nConnection: Upgrade\r\n\r\n"
    )
    while piece := connection.recv(65536):
        connection.sendall(piece)


def write_pages(folder: pathlib.Path) -> None:
    for name, body in PAGES.items():
        page = folder / name
        page.parent.mkdir(parents=True, exist_ok=True)
        page.write_bytes(body)
        os.utime(page, (LAST_CHANGE, LAST_CHANGE))


def make_certificate(folder: pathlib.Path) -> None:
    """A certificate that is signed by its own key."""
    subprocess.run(
        [
            "openssl",
            "req",
            "-x509",
            "-newkey",
            "rsa:2048",
            "-nodes",
            "-days",
            "2",
            "-subj",
            f"/CN={NAME}",
            "-addext",
            f"subjectAltName=DNS:{NAME},DNS:{PREVIEW_NAME},DNS:{UNKNOWN_NAME}",
            "-keyout",
            folder / "web.key",
            "-out",
            folder / "web.pem",
        ],
        capture_output=True,
        check=True,
    )


def told_fields(reply: Reply) -> Reply:
    """A reply that lists fields, without the one that the switch adds."""
    lines = [line for line in sorted(reply.body.split(b"\n")) if not line.startswith(b"Via:")]
    return reply._replace(body=b"\n".join(lines))


def compare(setup: NginxSetup) -> None:
    """Each request is answered as without the switch."""
    for name, case in CASES.items():
        got, without = setup.ask(setup.front, case), setup.ask(setup.plain_front, case)
        if case.target == "/all-fields":
            got, without = told_fields(got), told_fields(without)
            check("no forged field reaches the endpoint", b"10.0.0.1" in got.body, False)
        check(f"{name}: the status", got.status, case.status)
        check(f"{name}: as without the switch", got == without or (got[:2], without[:2]), True)
        if "Accept-Encoding" in case.fields:
            check(f"{name}: it is compressed", got.fields.get("content-encoding"), "gzip")
    check("the preview service", setup.ask(setup.front, CASES["a page"], PREVIEW_NAME).status, 200)
    with contextlib.suppress(ssl.SSLError):
        setup.ask(setup.front, CASES["a page"], UNKNOWN_NAME)
        checks.fail("a name that isn't listed", "it got a connection")


def upgrade(setup: NginxSetup) -> None:
    """An upgrade passes nginx, the switch, and an endpoint that is nginx before a server."""
    for name, front in (("with the switch", setup.front), ("without it", setup.plain_front)):
        with setup.context.wrap_socket(connect(front), server_hostname=NAME) as client:
            client.sendall(
                b"GET /chat HTTP/1.1\r\nHost: web.example\r\nConnection: Upgrade\r\nUpgrade: websocket\r\n\r\n"
            )
            head = b""
            while not head.endswith(b"\r\n\r\n"):
                head += client.recv(1)
            check(f"{name}: the status", head.split(b" ")[1], b"101")
            for text in (b"one", b"two" * 30000):
                client.sendall(text)
                came = b""
                while len(came) < len(text):
                    came += client.recv(65536)
                check(f"{name}: what comes back", came, text)


def make_tools(folder: pathlib.Path) -> pathlib.Path:
    """The one file of the tools, by `make tools`, where everybody can reach it."""
    archive = folder / "bg_switch_tools.pyz"
    subprocess.run(
        ["make", "--silent", "--no-print-directory", "-C", str(TOP), "tools", f"ARCHIVE={archive}"],
        stdout=subprocess.DEVNULL,
        check=True,
    )
    check("everybody may run the tools", stat.filemode(archive.stat().st_mode), "-rwxr-xr-x")
    folder.chmod(0o755)
    return archive


def start_as_another_user(command: str) -> "subprocess.Popen[str]":
    """Starts a command as a user without rights, as systemd starts a unit's. Only root can change
    the user. (setpriv keeps root's rights up to the exec, and so may run a file that the user may
    not.)"""
    user = OTHER_USER if os.geteuid() == 0 else None
    process = subprocess.Popen(
        command.split(),
        stdout=subprocess.PIPE,
        stderr=subprocess.PIPE,
        text=True,
        cwd="/",
        user=user,
        group=OTHER_GROUP if user else None,
        extra_groups=[] if user else None,
    )
    processes.limit(process)
    return process


def stop_by_unit(setup: NginxSetup) -> None:
    """The unit's commands: that of the start has the words of `serve`, and those of the stop end
    the switch."""
    unit = placed(EXAMPLE / "bg-switch.service", {})
    (start,) = values(unit, "ExecStart")
    check(
        "the start of the unit",
        sorted(start.split()),
        sorted(
            [
                "/usr/bin/bg_switch",
                *words_of_serve(ACTIVE, None, PREVIEW, 0, None, CONCURRENCY),
                "--control-socket",
                CONTROL,
                *SOCKET,
                *JOURNAL,
                "--abort-on-close",
            ]
        ),
    )
    check("the descriptors of the unit", values(unit, "LimitNOFILE"), [str(DESCRIPTORS)])
    archive = make_tools(setup.folder)
    shutdown, wait = values(
        unit.replace("/usr/bin/bg-operator", f"{archive} operator")
        .replace(CONTROL, setup.switch.path)
        .replace("${MAINPID}", str(setup.switch.process.pid)),
        "ExecStop",
    )
    check("a failure of the second command is ignored", wait[0], "-")
    pending, asking = start_as_another_user(wait[1:]), start_as_another_user(shutdown)
    check(
        "the first command of the stop",
        (*processes.output_of(asking, longest=SOON), asking.returncode),
        ("", "", 0),
    )
    ended = setup.switch.wait()
    check(
        "the switch has ended by itself",
        (ended.printed.splitlines()[-1][:6], ended.status),
        ("calls ", 0),
    )
    check(
        "the second command of the stop",
        (*processes.output_of(pending, longest=SOON), pending.returncode),
        ("", "", 0),
    )


def exposure(unit: pathlib.Path) -> float:
    """The exposure of a unit, by systemd's own measure: from 0 to 10, which is the worst."""
    run = subprocess.run(
        ["systemd-analyze", "security", "--offline=true", "--no-pager", unit],
        capture_output=True,
        text=True,
        check=False,
    )
    return float(run.stdout.rsplit("exposure level", 1)[1].split(":")[1].split()[0])


def verify_units(folder: pathlib.Path) -> None:
    """systemd takes the units, and finds them hardened, if it is installed. Their programs are put
    where they are."""
    if shutil.which("systemd-analyze") is None:
        print(
            "live_production: the units aren't judged, since systemd isn't installed here",
            flush=True,
        )
        return
    for name in UNITS:
        unit = folder / name
        unit.write_text(
            re.sub(r"/usr/bin/bg[_-]\w+", "/bin/true", placed(EXAMPLE / name, {})), encoding="ascii"
        )
        run = subprocess.run(
            ["systemd-analyze", "verify", "--man=no", unit],
            capture_output=True,
            text=True,
            check=False,
        )
        check(f"systemd takes {name}", (run.returncode, run.stderr), (0, ""))
        checks.check_within(f"the exposure of {name}", exposure(unit), MOST_EXPOSED)


def production() -> None:
    with tempfile.TemporaryDirectory() as name:
        folder = pathlib.Path(name)
        setup = NginxSetup(folder)
        try:
            compare(setup)
            upgrade(setup)
            stop_by_unit(setup)
        finally:
            setup.end()
        verify_units(folder)


if __name__ == "__main__":
    missing = [program for program in ("nginx", "openssl") if shutil.which(program) is None]
    if missing:
        print(
            f"live_production: skipped, since {' and '.join(missing)} can't be found here",
            flush=True,
        )
        sys.exit(0)
    checks.run("live_production", (production,))
