"""The access log of a running switch."""
import pathlib

from bg_switch_tools.switch.access_log import LogEntry, read_lines

from support.checks import check, comes


def entries_of(log: pathlib.Path, count: int) -> list[LogEntry]:
    """The entries of a log, once there are `count` of them; each line can be read."""
    comes(lambda: log.exists() and log.read_bytes().count(b"\n") >= count)
    batch = read_lines(log.read_bytes().splitlines())
    check("lines that can't be read", (batch.unreadable, batch.lost), (0, 0))
    return batch.entries
