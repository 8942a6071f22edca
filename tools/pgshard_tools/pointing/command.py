"""Runs pgshard, passes its output on as it comes, and then explains it on standard error."""

import contextlib
import os
import shutil
import signal
import stat
import subprocess
import sys
import threading

from pgshard_tools.pointing.lines import explained
from pgshard_tools.pointing.sentences import MAX_BYTES
from pgshard_tools.pointing.source import Source, files_of_input, name_of_input

USAGE = """\
Runs pgshard, and explains its answer on standard error in sentences, with positions in the input.

    explain PROGRAM [ARGUMENTS]    runs the program with these arguments on standard input"""

PIECE = 65_536

# At most this many bytes of an output are examined.
MOST_LOOKED_AT = 1 << 26

# The program's status if its output cannot be written.
NO_OUTPUT = 4

# The signals, besides an interrupt, that ask a process to end. A terminal sends an interrupt to the program, too.
ENDINGS = (signal.SIGTERM, signal.SIGHUP)


class Input:
    """The input of a run, which is kept up to the length that the program reads of a text. A file is passed to the
    program as it is. A pipe or a terminal is not read before the program has begun, nor earlier than the program could
    read it."""

    def __init__(self) -> None:
        self.is_pipe = not (stat.S_ISREG(os.fstat(0).st_mode) or stat.S_ISDIR(os.fstat(0).st_mode))
        self.pieces: list[bytes] | None = []
        self.length = 0
        self.has_begun = threading.Event()
        if self.is_pipe:
            self.reader, self.writer = os.pipe()
            threading.Thread(target=self.hand_on, daemon=True).start()

    def handle(self) -> int | None:
        """Returns what the program gets as its standard input: a pipe, or this process's own."""
        return self.reader if self.is_pipe else None

    def begin(self) -> None:
        """Passes on what arrives while the program runs."""
        if self.is_pipe:
            os.close(self.reader)
            self.has_begun.set()
        elif stat.S_ISREG(os.fstat(0).st_mode):
            try:
                self.pieces = [os.pread(0, min(os.fstat(0).st_size, MAX_BYTES) + 1, 0)]
            except (MemoryError, OSError):
                self.pieces = None

    def hand_on(self) -> None:
        """Passes on the input until it ends, a read fails, or the program stops reading."""
        piece = bytearray(PIECE)
        self.has_begun.wait()
        try:
            while count := os.readv(0, [piece]):
                self.keep(memoryview(piece)[:count])
                write(self.writer, memoryview(piece)[:count])
        except OSError:
            pass
        finally:
            os.close(self.writer)

    def keep(self, piece: bytes | memoryview) -> None:
        """Keeps a piece for the explanations. If memory is refused, there are none."""
        try:
            if self.pieces is not None and self.length <= MAX_BYTES:
                self.pieces.append(bytes(piece))
                self.length += len(piece)
        except MemoryError:
            self.pieces = None

    def data(self) -> bytes:
        """Returns what has been read so far."""
        if self.pieces is None:
            raise MemoryError
        return b"".join(self.pieces)


def main() -> int:
    """Runs the command with the arguments of this process."""
    if sys.argv[1:] in (["--help"], ["-h"]):
        print(USAGE)
        return 0
    if len(sys.argv) < 2:
        print(USAGE, file=sys.stderr)
        return 2
    if shutil.which(sys.argv[1]) is None:
        print(f"explain: there is no program {sys.argv[1]}", file=sys.stderr)
        return 2
    return run(sys.argv[1], sys.argv[2:])


def run(program: str, words: list[str]) -> int:
    """Runs the program, explains its output, and returns its exit status. If it cannot be explained, since a standard
    file is closed or memory is refused, the program takes the place of this process."""
    if None in (sys.stdin, sys.stdout, sys.stderr):
        os.execvp(program, [program, *words])
    try:
        given = Input()
        running = subprocess.Popen([program, *words], stdin=given.handle(), stdout=subprocess.PIPE)
    except (MemoryError, OSError, RuntimeError):
        os.execvp(program, [program, *words])
    pass_signals_on(running)
    given.begin()
    status, output = handed_on(running)
    # Nothing that happens from here on changes the status.
    with contextlib.suppress(Exception):
        source = Source(name_of_input(), given.data(), files_of_input())
        for line in explained(words, source, status, output.decode("utf-8", "surrogateescape")):
            print(line.encode("utf-8", "replace").decode(), file=sys.stderr, flush=True)
    return status


def pass_signals_on(running: "subprocess.Popen[bytes]") -> None:
    """Makes a signal that asks this process to end reach the program, whose end is then the end of the run."""
    for number in ENDINGS:
        if signal.getsignal(number) is not signal.SIG_IGN:
            signal.signal(number, lambda number, frame: running.send_signal(number))


def handed_on(running: "subprocess.Popen[bytes]") -> tuple[int, bytes]:
    """Returns the status and the output of a run, whose output is written as it comes. If writing fails, no more of the
    output is read, and the status is that of a program that cannot write its output: it may have written everything
    before."""
    kept, is_written = bytearray(), True
    printed = running.stdout
    assert printed is not None
    try:
        while piece := os.read(printed.fileno(), PIECE):
            with contextlib.suppress(MemoryError):
                kept.extend(piece[:MOST_LOOKED_AT - len(kept)])
            write(1, piece)
    except OSError:
        is_written = False
        printed.close()
    except KeyboardInterrupt:
        pass
    status = running.wait()
    return NO_OUTPUT if not is_written else 128 - status if status < 0 else status, bytes(kept)


def write(file: int, piece: bytes | memoryview) -> None:
    """Writes a whole piece."""
    while piece:
        piece = piece[os.write(file, piece):]
