"""Makes the runs, and reports what is wrong with them."""

import errno
import os
import pathlib
import socket
import tempfile
from collections import Counter

from random_cases.running import compiled, program
from tally import Tally

from .cases import Case, cases
from .publishes import check_publishes
from .running import READS, WRITES, Answer, Failure, failed_runs, run, run_with
from .serves import check_serves

# The number of failing runs of a case that are shown in detail.
MOST_SHOWN = 3

# The answer if the input cannot be read, and the status if the output cannot be written.
UNREAD = Answer(3, "input\n")
UNWRITTEN = 4

# How a read or a write fails, and whether all later calls do too. An interrupted call is repeated; 0 is a write that
# accepts nothing.
READ_ERRORS = [(errno.EIO, False), (errno.EIO, True), (errno.ENOMEM, False), (errno.EINTR, False)]
WRITE_ERRORS = [
    (errno.EIO, False), (errno.EIO, True), (errno.ENOSPC, True), (errno.EPIPE, True), (0, True), (errno.EINTR, False)]


def check_failed_runs(tally: Tally) -> None:
    """Makes all runs. Those with the library need a C compiler."""
    if not pathlib.Path(program()).exists():
        return tally.check("the program whose reads and writes fail", f"{program()} is not there", "it is built")
    check_files(tally)
    with tempfile.TemporaryDirectory() as folder:
        library = compiled(folder, "failing")
        if library is None:
            print("skipped: runs whose reads and writes fail, since no C compiler is installed")
            return
        met: Counter[str] = Counter()
        for case in cases():
            met += check_case(tally, case, library)
        met += check_serves(tally, library)
        met += check_publishes(tally, library)
        print(f"runs whose reads and writes fail: {met[READS]:,} with a read that failed, {met[WRITES]:,} with a write")


def check_case(tally: Tally, case: Case, library: str) -> Counter[int]:
    """Makes a run without failures, and runs in which each read and each write fails in turn."""
    plain, _ = run(case.words, case.text, {})
    name = f"{' '.join(case.words)} that writes {plain.output[:40]!r}"
    tally.check(f"{name}: the status of a plain run", plain.status in (0, 1, 2, 3), True)
    met: Counter[int] = Counter()
    for file, errors, most in (READS, READ_ERRORS, case.read), (WRITES, WRITE_ERRORS, case.written):
        faults = []
        for error, and_after in errors:
            runs = failed_runs(case.words, case.text, library, file, error, and_after, most)
            for failure, found, has_failed in runs:
                met[file] += bool(has_failed)
                if not is_right(plain, failure, found, has_failed):
                    faults.append(f"{failure}: {found}, {has_failed}")
        tally.check(f"{name}: where file {file} fails", faults[:MOST_SHOWN], [])
    return met


def is_right(plain: Answer, failure: Failure, found: Answer, has_failed: bool | None) -> bool:
    """Returns whether a run is right: it equals a plain run if no call failed or if calls were only interrupted; a
    failed read makes the input unreadable; after a failed write, the status says so, and the output is a prefix, or all
    of it if later writes accepted the rest."""
    if has_failed is None:
        return False
    if not has_failed or failure.error == errno.EINTR:
        return found == plain
    if failure.file == READS:
        return found == UNREAD
    most = failure.most * (failure.call - 1) if failure.and_after else len(plain.output)
    return found.status == UNWRITTEN and plain.output.startswith(found.output) and len(found.output) <= most


def check_files(tally: Tally) -> None:
    """Tests files that cannot be read or written: a folder, a full device, and a closed socket."""
    with tempfile.TemporaryDirectory() as folder, open("/dev/full", "wb") as full:
        opened = os.open(folder, os.O_RDONLY)
        with tempfile.TemporaryFile() as taken:
            tally.check("a folder as the input", run_with(("make",), opened, taken), UNREAD.status)
            taken.seek(0)
            tally.check("what is written of a folder", taken.read().decode(), UNREAD.output)
        for words in ("--help",), ("make",), ("check",), ("nope",):
            tally.check(f"{words} with a device that is full", run_with(words, opened, full), UNWRITTEN)
            tally.check(f"{words} with an end that is closed", run_with(words, opened, closed_socket()), UNWRITTEN)
        os.close(opened)


def closed_socket() -> socket.socket:
    """Returns a socket whose other end is closed."""
    one, other = socket.socketpair()
    other.close()
    return one
