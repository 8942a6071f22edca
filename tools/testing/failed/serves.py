"""Runs of `serve` in which a read or a write fails."""

import contextlib
import errno
import os
import socket
import subprocess
import tempfile
import threading
from collections import Counter

from random_cases.running import program
from served.program import NO_PORT, PORTS, free_port
from served.shardings import halves
from served.whole import TWO_COMMITS
from tally import Tally

from .running import MOST_CALLS, READS, SECONDS, WRITES, Answer, Failure

# The greatest number of bytes that a read returns and that a write accepts.
MOST = {READS: 40, WRITES: 7}


def check_serves(tally: Tally, library: str) -> Counter[int]:
    """Makes runs in which each read and each write fails in turn."""
    met: Counter[int] = Counter()
    for file, error in (READS, errno.EIO), (READS, errno.EINTR), (WRITES, errno.EPIPE), (WRITES, errno.EINTR):
        faults = []
        for call in range(1, MOST_CALLS):
            failure = Failure(file, call, error, error == errno.EPIPE, MOST[file])
            port, found, has_failed = serve(failure, library)
            met[file] += has_failed
            if not is_right(failure, port, found, has_failed):
                faults.append(f"{failure} serve: {found}")
            if not has_failed:
                break
        tally.check(f"serve where file {file} fails by {error}", faults, [])
    return met


def is_right(failure: Failure, port: int, found: Answer, has_failed: bool) -> bool:
    """Returns whether a run is right."""
    whole = f"listening {port}\nclosed 2 2\n"
    if not has_failed or failure.error == errno.EINTR:
        return found == Answer(0, whole)
    if failure.file == READS:
        return found == Answer(3, "input\n")
    return found.status == NO_PORT and whole.startswith(found.output) and found.output != whole


def serve(failure: Failure, library: str) -> tuple[int, Answer, bool]:
    """Makes a run. Returns its port, its answer and whether the call failed. Tries another port if the first one is
    taken."""
    for _ in range(PORTS):
        port = free_port()
        found, has_failed = serve_at(port, failure, library)
        if has_failed or found != Answer(NO_PORT, ""):
            break
    return port, found, has_failed


def serve_at(port: int, failure: Failure, library: str) -> tuple[Answer, bool]:
    """Makes a run on a port, with two clients that end at once."""
    with tempfile.TemporaryFile() as given, tempfile.TemporaryFile() as errors:
        given.write(halves(TWO_COMMITS).input().encode())
        given.seek(0)
        words = [program(), "serve", "--port", str(port)]
        variables = os.environ | failure.variables(library)
        with subprocess.Popen(words, stdin=given, stdout=subprocess.PIPE, stderr=errors, env=variables) as started:
            late = threading.Timer(SECONDS, started.kill)
            late.start()
            first = started.stdout.readline()
            if first.endswith(b"\n") and first.startswith(b"listening"):
                connect_twice(port)
            output = first + started.stdout.read()
            status = started.wait()
            late.cancel()
        errors.seek(0)
        # The program's lines precede the library's line.
        return Answer(status, output.decode(errors="backslashreplace")), errors.read().splitlines()[-1:] == [b"failed"]


def connect_twice(port: int) -> None:
    """Makes two connections, and ends them."""
    for _ in range(2):
        with contextlib.suppress(OSError):
            socket.create_connection(("127.0.0.1", port), timeout=SECONDS).close()
