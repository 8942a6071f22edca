"""Runs the built program while memory is refused."""

import os
import re
import subprocess
from collections.abc import Callable, Iterator
from concurrent.futures import ThreadPoolExecutor
from dataclasses import dataclass
from typing import Protocol, TypeVar

from random_cases.running import program

# The time limit of a run in seconds, also on a busy machine. A run of `publish` in which no connection slot can be
# started sleeps 10,000 times for a millisecond, and each sleep may take several times as long.
SECONDS = 300

# The last line and the status of a run for which memory ran out.
OUT_OF_MEMORY = "out of memory\n"
NO_MEMORY = 5

# No request after this many is refused, though there may be more requests.
MOST_REQUESTS = 20_000

# After this many runs whose number of refused requests is unknown, no more are made.
MOST_UNTOLD = 5

# The distance between requests from which on all are refused.
STRIDE_AFTER = 5

# How many runs with clients, which mostly wait, are made at a time.
AT_A_TIME = 4

COUNT = re.compile("([0-9]+) refused\n")


@dataclass(frozen=True)
class Answer:
    """A run's status, or None if it took too long; its output; and the number of refused requests, or None if it is
    unknown."""

    status: int | None
    output: str
    refused: int | None = 0


@dataclass(frozen=True)
class Refusal:
    """Which requests for memory or for threads are refused: the one with this number, from 1, or that one and all after
    it."""

    number: int
    and_after: bool
    kind: str = "REQUEST"

    def variables(self, library: str) -> dict[str, str]:
        """Returns the environment variables that the library reads."""
        more = {"REFUSED_AFTER": "1"} if self.and_after else {}
        return {"LD_PRELOAD": library, f"REFUSED_{self.kind}": str(self.number)} | more

    def __str__(self) -> str:
        return f"REFUSED_{self.kind}={self.number}{' REFUSED_AFTER=1' if self.and_after else ''}"


class Ran(Protocol):
    """The result of a run with clients."""

    @property
    def answer(self) -> Answer:
        """Returns the program's answer."""


Found = TypeVar("Found", bound=Ran)


def refused_in_turn(run: Callable[[Refusal], Found], stride: int, stride_after: int) -> Iterator[tuple[Refusal, Found]]:
    """Makes runs in which some requests are refused, several at a time, up to runs that meet no refusal; and the same
    with all later requests refused. A stride is the distance from one of these requests to the next."""
    for and_after, step in (False, stride), (True, stride_after):
        first = 1
        with ThreadPoolExecutor(AT_A_TIME) as pool:
            while first < MOST_REQUESTS:
                end = first + step * AT_A_TIME
                refusals = [Refusal(number, and_after) for number in range(first, end, step)]
                made = list(zip(refusals, pool.map(run, refusals)))
                yield from made
                if any(not found.answer.refused for _, found in made):
                    break
                first = end


def run(words: tuple[str, ...], text: bytes, variables: dict[str, str]) -> Answer:
    """Makes a run."""
    try:
        ended = subprocess.run(
            [program(), *words], input=text, stdout=subprocess.PIPE, stderr=subprocess.PIPE, timeout=SECONDS,
            env=os.environ | variables)
    except subprocess.TimeoutExpired:
        return Answer(None, "", None)
    return Answer(ended.returncode, ended.stdout.decode(errors="backslashreplace"), count_of(ended.stderr))


def count_of(errors: bytes) -> int | None:
    """Returns how many requests were refused according to the library."""
    told = COUNT.fullmatch(errors.decode(errors="replace"))
    return int(told[1]) if told else None


def refused_runs(words: tuple[str, ...], text: bytes, library: str) -> Iterator[tuple[Refusal, Answer]]:
    """Makes runs in which each request is refused in turn, up to one that meets no refusal; and for some requests also
    runs with all later ones refused."""
    for and_after, stride in (False, 1), (True, STRIDE_AFTER):
        untold = 0
        for number in range(1, MOST_REQUESTS, stride):
            refusal = Refusal(number, and_after)
            found = run(words, text, refusal.variables(library))
            yield refusal, found
            untold += found.refused is None
            if found.refused == 0 or untold == MOST_UNTOLD:
                break
