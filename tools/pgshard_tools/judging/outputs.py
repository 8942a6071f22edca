"""Judge's standard output and standard error. A failure of either never ends the run as if a table were not sound."""

import contextlib
import io
import os
import sys
from collections.abc import Iterator


class NoOutput(Exception):
    """Standard output cannot be written."""


class Output(io.TextIOWrapper):
    """Standard output. Its failures are of a type of their own, so that they are not taken for those of anything
    else."""

    def write(self, text: str) -> int:
        """Writes a text."""
        with refusals_told():
            return super().write(text)

    def flush(self) -> None:
        """Writes what has been kept back."""
        with refusals_told():
            super().flush()


@contextlib.contextmanager
def refusals_told() -> Iterator[None]:
    """Raises NoOutput if a write in the block fails."""
    try:
        yield
    except BrokenPipeError as fault:
        raise NoOutput("the output was closed") from fault
    except OSError as fault:
        raise NoOutput(f"the output cannot be written: {fault.strerror or fault}") from fault


def open_output() -> None:
    """Sets standard output. Texts that are not UTF-8 are printed with escapes."""
    if sys.stdout is None:
        raise NoOutput("the output was closed")
    sys.stdout = Output(sys.stdout.buffer, encoding="utf-8", errors="backslashreplace")


def drop_output() -> None:
    """Makes what was not written go nowhere. Otherwise Python would try to write it again when it exits."""
    if sys.stdout is not None:
        drop(1)


def tell(line: str) -> None:
    """Writes a line to standard error, if that is possible."""
    if sys.stderr is None:
        return
    try:
        print(line.encode("utf-8", "replace").decode(), file=sys.stderr, flush=True)
    except OSError:
        drop(2)


def drop(number: int) -> None:
    """Redirects a file of this process to nowhere."""
    nowhere = os.open(os.devnull, os.O_WRONLY)
    os.dup2(nowhere, number)
    os.close(nowhere)
