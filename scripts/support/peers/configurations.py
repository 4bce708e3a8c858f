"""The configurations of the proxies that are measured, so that all do the same: which connections
they keep, how long they wait, and how many connections they take."""
import enum
import pathlib
import re
from collections.abc import Mapping
from typing import NamedTuple

from support.ports import HOST

SWITCH = "bg_switch"
MOST_CONNECTIONS = 8192
BACKLOG = 4096
CONNECT_SECONDS, MESSAGE_SECONDS = 5, 60
# More than a connection of any run has. The proxies close it after this number of requests.
MOST_REQUESTS = 1_000_000


class Mode(enum.Enum):
    """Which connections are kept for further requests."""

    BOTH = "both"
    CLIENT = "client"
    NONE = "none"

    @property
    def keeps_clients(self) -> bool:
        return self is not Mode.NONE

    @property
    def keeps_endpoints(self) -> bool:
        return self is Mode.BOTH


# The flags of `serve` for each mode; None if no flags give it. A mode is left out if the help of
# `serve` does not name its flags.
SWITCH_FLAGS: Mapping[Mode, tuple[str, ...] | None] = {
    Mode.BOTH: ("--keep-alive", "--keep-alive-requests", str(MOST_REQUESTS)),
    Mode.CLIENT: None,
    Mode.NONE: (),
}
HAPROXY_OPTIONS = {
    Mode.BOTH: "option http-keep-alive\n    http-reuse always",
    Mode.CLIENT: "option http-server-close",
    Mode.NONE: "option httpclose",
}


class Place(NamedTuple):
    """Where a proxy takes connections, its endpoint, and the folder of its files."""

    port: int
    endpoint: int
    folder: pathlib.Path


def nginx(place: Place, mode: Mode, workers: int) -> str:
    """The text of nginx.conf. Its paths are those of the folder that `nginx -p` names."""
    kept = f"keepalive_requests {MOST_REQUESTS};"
    clients = f"keepalive_timeout {MESSAGE_SECONDS if mode.keeps_clients else 0}; {kept}"
    endpoints = f"keepalive {MOST_CONNECTIONS}; {kept}" if mode.keeps_endpoints else ""
    paths = "".join(
        f"    {name}_temp_path {name};\n"
        for name in ("client_body", "proxy", "fastcgi", "uwsgi", "scgi")
    )
    return f"""worker_processes {workers};
pid nginx.pid;
error_log stderr crit;
events {{ worker_connections {2 * MOST_CONNECTIONS}; }}
http {{
    access_log off;
{paths}    upstream endpoint {{ server {HOST}:{place.endpoint}; {endpoints} }}
    server {{
        listen {HOST}:{place.port} backlog={BACKLOG};
        {clients}
        location / {{
            proxy_pass http://endpoint;
            proxy_http_version 1.1;
            proxy_set_header Connection {'""' if mode.keeps_endpoints else "close"};
            proxy_set_header Host $host;
            proxy_connect_timeout {CONNECT_SECONDS}s;
            proxy_read_timeout {MESSAGE_SECONDS}s;
        }}
    }}
}}
"""


def haproxy(place: Place, mode: Mode, threads: int, most: int | None = None) -> str:
    """The text of haproxy.cfg. With `most`, HAProxy forwards so many requests at a time, and the
    others wait."""
    limit = "" if most is None else f" maxconn {most}"
    return f"""global
    nbthread {threads}
    maxconn {MOST_CONNECTIONS}
defaults
    mode http
    maxconn {MOST_CONNECTIONS}
    {HAPROXY_OPTIONS[mode]}
    timeout connect {CONNECT_SECONDS}s
    timeout client {MESSAGE_SECONDS}s
    timeout server {MESSAGE_SECONDS}s
frontend clients
    bind {HOST}:{place.port} backlog {BACKLOG}
    default_backend endpoints
backend endpoints
    server one {HOST}:{place.endpoint}{limit}
"""


def flags_in(help_of_serve: str, mode: Mode) -> tuple[str, ...] | None:
    """The flags of the switch for a mode; None if there are none, or its help lacks one."""
    flags = SWITCH_FLAGS[mode]
    if flags is None:
        return None
    names = (re.escape(flag) for flag in flags if flag.startswith("--"))
    has_each = all(re.search(rf"(?<![\w-]){name}(?![\w-])", help_of_serve) for name in names)
    return flags if has_each else None
