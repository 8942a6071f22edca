"""Makes runs in which a read or a write fails, either through the library of failing.c or because a file cannot be read
or written."""

import os
import subprocess
from collections.abc import Iterator
from dataclasses import dataclass

from random_cases.running import program

# The time limit of a run in seconds, also on a busy machine.
SECONDS = 300

# No call after this many fails, though there may be more calls.
MOST_CALLS = 2_000

READS, WRITES = 0, 1


@dataclass(frozen=True)
class Answer:
    """The status of a run, or None if it took too long, and its output."""

    status: int | None
    output: str


@dataclass(frozen=True)
class Failure:
    """Which call on which file fails and how, whether all later ones do too, and the greatest number of bytes per
    call."""

    file: int
    call: int
    error: int
    and_after: bool
    most: int

    def variables(self, library: str) -> dict[str, str]:
        """Returns the environment variables that the library reads."""
        more = {"FAILED_AFTER": "1"} if self.and_after else {}
        return more | {
            "LD_PRELOAD": library, "FAILED_FILE": str(self.file), "FAILED_CALL": str(self.call),
            "FAILED_ERROR": str(self.error), "MOST_BYTES": str(self.most)}


def run(words: tuple[str, ...], text: bytes, variables: dict[str, str]) -> tuple[Answer, bool | None]:
    """Makes a run. Also returns whether the call failed, or None if the library does not say."""
    try:
        ended = subprocess.run(
            [program(), *words], input=text, stdout=subprocess.PIPE, stderr=subprocess.PIPE, timeout=SECONDS,
            env=os.environ | variables)
    except subprocess.TimeoutExpired:
        return Answer(None, ""), None
    told = {b"failed\n": True, b"not failed\n": False}
    return Answer(ended.returncode, ended.stdout.decode(errors="backslashreplace")), told.get(ended.stderr)


def failed_runs(
        words: tuple[str, ...], text: bytes, library: str, file: int, error: int, and_after: bool, most: int,
) -> Iterator[tuple[Failure, Answer, bool | None]]:
    """Makes runs in which each call on a file fails in turn, up to one in which none does."""
    for call in range(1, MOST_CALLS):
        failure = Failure(file, call, error, and_after, most)
        found, has_failed = run(words, text, failure.variables(library))
        yield failure, found, has_failed
        if not has_failed:
            break


def run_with(words: tuple[str, ...], given: object, taken: object) -> int | None:
    """Returns the status of a run with other files as its standard input and output."""
    try:
        return subprocess.run(
            [program(), *words], stdin=given, stdout=taken, stderr=subprocess.DEVNULL, timeout=SECONDS).returncode
    except subprocess.TimeoutExpired:
        return None
