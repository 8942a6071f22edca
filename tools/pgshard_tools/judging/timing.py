"""Limits the time for a table. It is processor time, so that a busy machine does not change an answer."""

import contextlib
import os
import resource
import signal
import time
from collections.abc import Iterator
from types import FrameType

# The first signal is repeated until the time limit is left, in case an exception is lost.
AGAIN = 0.25
# By the clock, a table may take this many times as long, for example if the server does not answer.
PATIENCE = 10
# The processes that are being waited for, with the time at which each began.
RUNNING: dict[int, float] = {}


class TimeIsUp(Exception):
    """The time is over."""


@contextlib.contextmanager
def time_limit(seconds: float) -> Iterator[None]:
    """Raises TimeIsUp inside the block when the time is over, wherever execution is then."""
    end, end_by_clock = processor_time() + seconds, time.monotonic() + PATIENCE * seconds

    def ring(number: int, frame: FrameType | None) -> None:
        """Handles the signal."""
        if processor_time() >= end or time.monotonic() >= end_by_clock:
            raise TimeIsUp

    before = signal.signal(signal.SIGALRM, ring)
    signal.setitimer(signal.ITIMER_REAL, seconds, min(AGAIN, seconds))
    try:
        yield
    finally:
        signal.setitimer(signal.ITIMER_REAL, 0)
        signal.signal(signal.SIGALRM, before)


@contextlib.contextmanager
def counted(process: int) -> Iterator[None]:
    """Includes the processor time of a process that the block waits for."""
    RUNNING[process] = time.monotonic()
    try:
        yield
    finally:
        del RUNNING[process]


def processor_time() -> float:
    """Returns what this process has used, in seconds, with the processes that it has waited for or is waiting for."""
    ended = resource.getrusage(resource.RUSAGE_CHILDREN)
    running = sum(time_of(process, begun) for process, begun in list(RUNNING.items()))
    return time.process_time() + ended.ru_utime + ended.ru_stime + running


def time_of(process: int, begun: float) -> float:
    """Returns what a running process has used: as Linux reports it, and elsewhere the time since it began."""
    if not os.path.exists("/proc/self/stat"):
        return time.monotonic() - begun
    try:
        with open(f"/proc/{process}/stat", encoding="ascii", errors="replace") as file:
            # The fields before these end with the program's name, which ends with the last parenthesis.
            fields = file.read().rpartition(")")[2].split()
    except OSError:
        # It has ended, and counts among those that were waited for.
        return 0
    return (int(fields[11]) + int(fields[12])) / os.sysconf("SC_CLK_TCK")
