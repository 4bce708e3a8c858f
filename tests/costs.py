"""What a call costs, so that it does not depend on how busy or how fast the machine is: its steps,
or its processor time beside that of another call."""
import sys
import time
from collections.abc import Callable
from types import FrameType
from typing import Any

RUNS = 3


def steps_of(call: Callable[[], object]) -> int:
    """How many lines of Python a call executes in this thread."""
    count = 0

    def trace(_: FrameType, event: str, __: object) -> Any:
        nonlocal count
        count += event == "line"
        return trace

    before = sys.gettrace()
    sys.settrace(trace)
    try:
        call()
    finally:
        sys.settrace(before)
    return count


def processor_seconds_of(call: Callable[[], object]) -> float:
    """The processor time of a call: the least of several, since other processes share the caches of
    the processor."""
    return min(processor_seconds_of_one(call) for _ in range(RUNS))


def processor_seconds_of_one(call: Callable[[], object]) -> float:
    begun = time.process_time()
    call()
    return time.process_time() - begun
