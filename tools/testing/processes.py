"""Runs a function in as many processes as there are processors."""

import os
import signal
from collections.abc import Callable, Iterator, Sequence
from concurrent.futures import ProcessPoolExecutor
from typing import TypeVar

from server import ENDINGS

Given = TypeVar("Given")
Answer = TypeVar("Answer")


def each(function: Callable[[Given], Answer], given: Sequence[Given]) -> Iterator[Answer]:
    """Yields the function's result for each value, in order. Raises if a process is killed."""
    processes = min(len(os.sched_getaffinity(0)), len(given))
    if processes <= 1:
        yield from map(function, given)
        return
    executor = ProcessPoolExecutor(processes, initializer=end_by_signals)
    try:
        yield from executor.map(function, given)
    finally:
        executor.shutdown(cancel_futures=True)


def end_by_signals() -> None:
    """Makes signals that ask this process to end kill it at once. The starting program exits on such a signal instead,
    and an exit could happen while the process holds a lock that others wait for."""
    for ending in ENDINGS:
        signal.signal(ending, signal.SIG_DFL)
