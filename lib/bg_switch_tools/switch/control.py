"""Where a switch takes lines: at a port of this machine, or at a Unix socket."""
import re
import socket

HOST = "127.0.0.1"
LONGEST_PATH = 107  # characters of the path of a socket (unix(7))
SOCKET_PATH = re.compile(r"[\x20-\x7e]*/[\x20-\x7e]*")
ABSOLUTE = re.compile(r"/[\x20-\x7e]*")

Control = int | str  # a port of 127.0.0.1, or the path of a socket


def kind_of(control: Control) -> str:
    """`port` or `socket`."""
    return "port" if isinstance(control, int) else "socket"


def place_of(control: Control) -> str:
    """What messages call it."""
    return f"{kind_of(control)} {control}"


def is_path(text: str) -> bool:
    """Whether a text is the path of a socket: one with a slash, which no port has."""
    return SOCKET_PATH.fullmatch(text) is not None and len(text) <= LONGEST_PATH


def connected(control: Control, wait: float) -> socket.socket:
    """A connection, made within `wait` seconds. `OSError` if none was made."""
    if isinstance(control, int):
        return socket.create_connection((HOST, control), timeout=wait)
    connection = socket.socket(socket.AF_UNIX)
    try:
        connection.settimeout(wait)
        connection.connect(control)
    except OSError:
        connection.close()
        raise
    return connection
