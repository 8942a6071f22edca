"""Where a write or memory is refused: a device that is full, which is the test's own, and a limit of memory."""

import contextlib
import os
import pathlib
import resource
import signal
import stat
import subprocess
import tempfile
from collections.abc import Iterator, Sequence
from typing import IO

# The number of /dev/full.
FULL = os.makedev(1, 7)
# The time limit of a run in seconds. It takes about one, but a machine may be a hundred times slower for a while.
MOST_SECONDS = 900


@contextlib.contextmanager
def full_device() -> Iterator[int | None]:
    """Yields an open file of a device that is full, or None if this user may not make one. Tests make a node of their
    own in a temporary folder, since a fault of what they test might replace a device of the machine."""
    with tempfile.TemporaryDirectory() as folder:
        path = pathlib.Path(folder) / "full"
        try:
            os.mknod(path, stat.S_IFCHR | 0o666, FULL)
            file = os.open(path, os.O_WRONLY)
        except PermissionError:
            print("skipped: a device that is full, since this user may not make one")
            yield None
            return
        try:
            yield file
        finally:
            os.close(file)


def status_within(kilobytes: int, command: Sequence[str | pathlib.Path], environment: dict[str, str]) -> int:
    """Returns the status of a command that may have so much memory. If it does not end, this prints where it hangs, and
    runs it once more: the status is what is tested, and Python itself may hang if memory is refused."""
    try:
        return status_once(kilobytes, command, environment)
    except subprocess.TimeoutExpired:
        return status_once(kilobytes, command, environment)


def status_once(kilobytes: int, command: Sequence[str | pathlib.Path], environment: dict[str, str]) -> int:
    """Runs a command with so much memory, and returns its status. Prints where Python was if it does not end."""
    most = kilobytes * 1024
    with tempfile.TemporaryFile() as errors:
        process = subprocess.Popen(
            command, stdin=subprocess.DEVNULL, stdout=subprocess.DEVNULL, stderr=errors,
            env=environment | {"PYTHONFAULTHANDLER": "1"},
            preexec_fn=lambda: resource.setrlimit(resource.RLIMIT_AS, (most, most)))
        with process:
            try:
                return process.wait(MOST_SECONDS)
            except subprocess.TimeoutExpired:
                show_where(process, f"no end within {MOST_SECONDS} seconds with {kilobytes} kB: {command}", errors)
                raise
            finally:
                process.kill()


def show_where(process: "subprocess.Popen[bytes]", line: str, errors: IO[bytes]) -> None:
    """Prints a line, and what a process writes when it is aborted: Python's handler of faults shows its stack."""
    process.send_signal(signal.SIGABRT)
    with contextlib.suppress(subprocess.TimeoutExpired):
        process.wait(10)
    errors.seek(0)
    print(line, errors.read().decode("utf-8", "replace")[-4000:], sep="\n", flush=True)
