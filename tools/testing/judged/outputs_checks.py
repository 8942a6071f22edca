"""Tests judge's exit status if its output or its memory is refused: status 1 would say that a table is not sound."""

import os
import subprocess
import sys
from collections.abc import Callable, Sequence

from pgshard_tools.judging.pythons import SYSTEM_PYTHON
from programs import PGSHARD, TOOLS
from refusing_places import full_device, status_within
from server import Server, environment
from tally import Tally

CATALOG = TOOLS.parent / "examples" / "shop.sql"
SETUP = "CREATE TABLE t (id integer PRIMARY KEY); CREATE PUBLICATION p FOR TABLE t;"
# Options for a file that is sound, and for a database that is sound.
OF_FILE = [(), ("--json",), ("--nagios",), ("--all",), ("--help",), ("--version",), ("--json", "--none")]
OF_DATABASE = [(), ("--json",), ("--repair", "t"), ("--catalog", "t"), ("--databases",), ("--watch", "1")]

NO_MEMORY, NO_OUTPUT, UNKNOWN = 5, 6, 3
# The Pythons that run judge: the system's, if this one has no pglast.
PYTHONS = [sys.executable, SYSTEM_PYTHON] if os.access(SYSTEM_PYTHON, os.X_OK) else [sys.executable]
# Limits of memory in kB. Below the first of them Python does not start, and above the last judge answers.
LIMITS = range(8_000, 40_000, 2_000)


def check_outputs(tally: Tally, server: Server) -> None:
    """Tests outputs that fail, and then memory that is refused."""
    server.create("written", SETUP)
    runs: list[list[str]] = [[str(CATALOG), *words] for words in OF_FILE]
    runs += [[*server.words("written"), *words] for words in OF_DATABASE]
    for words in runs:
        check_closed(tally, words)
    with full_device() as full:
        if full is not None:
            check_full(tally, runs, full)
    check_memory(tally)


def check_closed(tally: Tally, words: Sequence[str]) -> None:
    """Tests an output that was closed before the start, and a pipe that nobody reads."""
    expected = (UNKNOWN if "--nagios" in words else NO_OUTPUT, "judge: the output was closed\n")
    reader, writer = os.pipe()
    os.close(reader)
    tally.check(f"a pipe that nobody reads: {words}", ran(words, writer), expected)
    os.close(writer)
    tally.check(f"an output that was closed: {words}", ran(words, None, lambda: os.close(1)), expected)


def check_full(tally: Tally, runs: Sequence[Sequence[str]], full: int) -> None:
    """Tests a device that is full, as an output and as standard error."""
    line = "judge: the output cannot be written: No space left on device\n"
    for words in runs:
        status = UNKNOWN if "--nagios" in words else NO_OUTPUT
        tally.check(f"an output that is full: {words}", ran(words, full), (status, line))
    answer = subprocess.run(
        [TOOLS / "judge", CATALOG, "--none"], stdout=subprocess.PIPE, stderr=full, env=environment())
    tally.check("standard error that is full", (answer.returncode, answer.stdout), (2, b""))


def ran(words: Sequence[str], output: int | None, first: Callable[[], None] | None = None) -> tuple[int, str]:
    """Runs judge. Returns its status and standard error."""
    answer = subprocess.run(
        [TOOLS / "judge", *words], stdin=subprocess.DEVNULL, stdout=output, stderr=subprocess.PIPE, preexec_fn=first,
        encoding="utf-8", env=environment() | {"PGSHARD": PGSHARD}, timeout=300)
    return answer.returncode, answer.stderr


def check_memory(tally: Tally) -> None:
    """Checks that judge answers or says that memory is refused, at each limit at which its Pythons start."""
    found, variables = set(), environment() | {"PGSHARD": PGSHARD}
    for limit in LIMITS:
        for word, refused in ("--all", NO_MEMORY), ("--nagios", UNKNOWN):
            if all(status_within(limit, [python, "-c", ""], variables) == 0 for python in PYTHONS):
                status = status_within(limit, [sys.executable, TOOLS / "judge", CATALOG, word], variables)
                found.add(status)
                tally.check(f"{word} with {limit} kB", status if status not in (0, refused) else None, None)
    tally.check("both were seen", found, {0, NO_MEMORY, UNKNOWN})
