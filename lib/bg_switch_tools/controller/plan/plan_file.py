"""The file of a plan: a command reads it once, and a controller reads it again while it runs."""
import functools
import os
from typing import NamedTuple

from bg_switch_tools.controller.plan.plan import Plan
from bg_switch_tools.controller.plan.plan_reader import LARGEST, PlanError, read_plan

KNOWN = 8  # texts of plans whose values are kept


@functools.lru_cache(maxsize=KNOWN)
def plan_of(text: bytes) -> Plan:
    """The plan of a text. `PlanError` if it is not a plan."""
    return read_plan(text)


def read_whole_plan(path: str) -> Plan:
    """The plan of a file. `PlanError` if it is not a plan, or can't be read."""
    return PlanFile(path).first()


def unreadable(error: OSError) -> PlanError:
    return PlanError([f"it can't be read: {error.strerror}"])


class PlanEdit(NamedTuple):
    """An edit of a plan: its text before and after, which are one if nothing was to be changed."""

    before: bytes
    after: bytes

    @property
    def has_changed(self) -> bool:
        return self.before != self.after


class OpenPlan:
    """A plan that a command reads once. Its file stays open up to the end of the command, so that no
    other file can be taken for it."""

    def __init__(self, path: str) -> None:
        self.path = path
        self.descriptor = -1
        self.stat: os.stat_result | None = None  # of the file that was read
        self.read_text = b""

    def _read(self) -> None:
        self.close()
        self.descriptor = os.open(self.path, os.O_RDONLY | os.O_CLOEXEC)
        stat = os.fstat(self.descriptor)  # before the read: a change during it is one after it
        with open(self.descriptor, "rb", closefd=False) as file:
            self.read_text = file.read(LARGEST + 1)
        self.stat = stat

    def close(self) -> None:
        if self.descriptor >= 0:
            os.close(self.descriptor)
        self.descriptor = -1

    def text(self) -> bytes:
        """The text, as it was when the command has read it. `OSError` if it can't be read."""
        if self.stat is None:
            self._read()
        return self.read_text

    def latest(self) -> bytes:
        """The text as it is now. It is read again only if another one has taken its place."""
        if self.stat is None or not _is_same(os.stat(self.path), self.stat):
            self._read()
        return self.read_text


def _is_same(now: os.stat_result, then: os.stat_result) -> bool:
    """Whether these are of one file, which has not changed."""
    return os.path.samestat(now, then) and (now.st_size, now.st_mtime_ns) == (
        then.st_size,
        then.st_mtime_ns,
    )


class PlanFile:
    """Reads a plan, and notices what has become of its file."""

    def __init__(self, path: str, text: bytes | None = None) -> None:
        """`text` is that of the file, if the caller has read it already."""
        self.path = path
        self.text = text  # what was read last; None if it could not be read
        self.was_readable = True

    def first(self) -> Plan:
        """The plan, for the first time. `PlanError` if the file is not a plan, or can't be read."""
        if self.text is None:
            try:
                self.text = self._bytes()
            except OSError as error:
                raise unreadable(error) from None
        return plan_of(self.text)

    def _bytes(self) -> bytes:
        with open(self.path, "rb") as file:
            return file.read(LARGEST + 1)

    def read(self) -> Plan | None:
        """The plan, or None if the file is as it was at the last read. `PlanError` if it is no
        longer a plan."""
        try:
            text = self._bytes()
        except OSError as error:
            if not self.was_readable:
                return None
            self.text, self.was_readable = None, False
            raise unreadable(error) from None
        self.was_readable = True
        if text == self.text:
            return None
        self.text = text
        return plan_of(text)
