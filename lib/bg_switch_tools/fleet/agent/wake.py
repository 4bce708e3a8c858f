"""A wait of a thread that another thread can end."""
import threading
import time


class Wake:
    """Ends a wait of a thread early."""

    def __init__(self) -> None:
        self._event = threading.Event()

    def wake(self) -> None:
        self._event.set()

    def clear(self) -> None:
        """Forgets that it was woken: the thread does by itself what it would be woken for."""
        self._event.clear()

    def wait(self, seconds: float, least: float = 0.0) -> bool:
        """Waits until the thread is woken, for at most `seconds` and at least `least` seconds.
        Gives whether it was woken."""
        begun = time.monotonic()
        is_woken = self._event.wait(seconds)
        self._event.clear()
        time.sleep(max(begun + least - time.monotonic(), 0.0))
        return is_woken
