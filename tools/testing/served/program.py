"""Runs `pgshard serve`, `pgshard publish` and tools/front, each on a port of its own."""

import contextlib
import os
import pathlib
import queue
import socket
import subprocess
import threading
import time
from collections.abc import Iterator

from programs import PGSHARD, TOOLS, decoded

# The time limit of any step, also on a busy machine, in seconds.
SECONDS = 120

# How many ports are tried, and the status of a program that cannot listen on its port.
PORTS = 3
NO_PORT = 4


class Started:
    """A program whose lines are read as they come."""

    def __init__(self, words: list[str], text: str = "") -> None:
        self.process = subprocess.Popen(
            words, stdin=subprocess.PIPE, stdout=subprocess.PIPE, stderr=subprocess.PIPE)
        self.lines: queue.Queue[str | None] = queue.Queue()
        # What it writes to standard error.
        self.log: list[str] = []
        threading.Thread(target=self.read, daemon=True).start()
        self.logging = threading.Thread(target=self.read_log, daemon=True)
        self.logging.start()
        threading.Thread(target=self.write, args=(text.encode(),), daemon=True).start()

    def read(self) -> None:
        for line in self.process.stdout:
            self.lines.put(decoded(line))
        self.lines.put(None)

    def read_log(self) -> None:
        for line in self.process.stderr:
            self.log.append(decoded(line))

    def write(self, given: bytes) -> None:
        # If a program ends before it has read everything, its status shows that.
        with contextlib.suppress(OSError):
            self.process.stdin.write(given)
            self.process.stdin.close()

    def line(self, seconds: float = SECONDS) -> str | None:
        """Returns the next line, or None if there is none or it does not come in time."""
        try:
            line = self.lines.get(timeout=seconds)
        except queue.Empty:
            return None
        if line is None:
            self.lines.put(None)
        return line

    def is_running(self) -> bool:
        return self.process.poll() is None

    def end(self, seconds: float = SECONDS) -> tuple[int | None, list[str]]:
        """Returns the status, or None if the program does not end, and the lines that were not read."""
        try:
            status = self.process.wait(seconds)
        except subprocess.TimeoutExpired:
            return None, [f"no end within {seconds} seconds\n"]
        return status, list(iter(self.line, None))

    def whole_log(self) -> list[str]:
        """Returns everything that it has written to standard error, after it has ended."""
        self.logging.join(SECONDS)
        return self.log

    def stop(self) -> None:
        """Ends the program if it is still running."""
        self.process.kill()
        self.process.wait()


@contextlib.contextmanager
def started(words: list[str], text: str = "") -> Iterator[Started]:
    program = Started(words, text)
    try:
        yield program
    finally:
        program.stop()


def free_port() -> int:
    """Returns a port that seems to be free."""
    with socket.socket() as taken:
        taken.bind(("127.0.0.1", 0))
        return taken.getsockname()[1]


@contextlib.contextmanager
def nobody() -> Iterator[int]:
    """Provides a port on which nobody listens or can listen."""
    with socket.socket() as bound:
        bound.bind(("127.0.0.1", 0))
        yield bound.getsockname()[1]


class NotStarted(Exception):
    """The program does not listen."""


@contextlib.contextmanager
def listening(words: list[str], text: str = "", seconds: float = SECONDS) -> Iterator[tuple[Started, int]]:
    """Runs a program that listens within this many seconds, and yields it with its port, which is passed with `--port`.
    Tries another port if the first one is taken."""
    for tries in range(1, PORTS + 1):
        port = free_port()
        with started([*words, "--port", str(port)], text) as program:
            line = program.line(seconds)
            if line == f"listening {port}\n":
                yield program, port
                return
            status, _ = program.end()
        if status != NO_PORT or tries == PORTS:
            raise NotStarted(f"{' '.join(words)} wrote {line!r} and has the status {status}")


@contextlib.contextmanager
def serving(text: str, *words: str, seconds: float = SECONDS) -> Iterator[tuple[Started, int]]:
    """Runs pgshard serve, and yields it with its port."""
    with listening([PGSHARD, "serve", *words], text, seconds) as program:
        yield program


class Publication(Started):
    """pgshard publish, which is sent one line at a time."""

    def write(self, given: bytes) -> None:
        with contextlib.suppress(OSError):
            self.process.stdin.write(given)
            self.process.stdin.flush()

    def say(self, line: str) -> None:
        self.write(f"{line}\n".encode())

    def ask(self, line: str) -> str | None:
        """Sends a line, and returns the first line of the answer."""
        self.say(line)
        return self.line()

    def finish(self) -> tuple[int | None, list[str]]:
        """Ends the input."""
        self.process.stdin.close()
        return self.end()


@contextlib.contextmanager
def publishing(text: str, *words: str) -> Iterator[tuple[Publication, int]]:
    """Runs pgshard publish, and yields it with its port. The text is a catalog and certificates."""
    program = Publication([PGSHARD, "publish", "--port", "0", *words], text)
    try:
        line = program.line()
        if line is None or not line.startswith("listening "):
            raise NotStarted(f"publish wrote {line!r} and has the status {program.process.poll()}")
        yield program, int(line.split()[1])
    finally:
        program.stop()


@contextlib.contextmanager
def fronting(backend: int, *words: str, limit: str | None = None) -> Iterator[tuple[Started, int]]:
    """Runs tools/front for a publisher, with a limit that prlimit sets, and yields it with its port."""
    limited = ["prlimit", limit] if limit is not None else []
    with listening([*limited, str(TOOLS / "front"), "--backend", str(backend), *words]) as program:
        yield program


def processor_time(process: int) -> float:
    """Returns the seconds of processor time that a process has used."""
    fields = pathlib.Path(f"/proc/{process}/stat").read_text(encoding="ascii").rpartition(")")[2].split()
    return (int(fields[11]) + int(fields[12])) / os.sysconf("SC_CLK_TCK")


def use_up(program: Started, port: int) -> None:
    """Makes connections and ends them at once, until the program, which accepts only this many, has ended."""
    until = time.monotonic() + SECONDS
    while program.is_running() and time.monotonic() < until:
        with contextlib.suppress(OSError):
            socket.create_connection(("127.0.0.1", port), timeout=1).close()
        time.sleep(0.002)
