"""Runs the parts of tools/test: checks what each needs, shares a server among them, and counts a part that raises as
failed."""

import contextlib
import faulthandler
import importlib
import pathlib
import shutil
import signal
import time
import traceback
from collections.abc import Callable, Iterator, Sequence
from dataclasses import dataclass, field

import calls_checks
import refusals
import server
from programs import prepare
from python_package_checks import NEEDED
from pythons import python_with
from served.consumers_checks import DRIVER
from tally import Tally


@dataclass(frozen=True)
class Need:
    """Something that a part needs: its name, and a function that returns why it is missing, or None if it is
    available."""

    name: str
    why_missing: Callable[[], str | None]


def needed(name: str, is_there: Callable[[], object], why: str) -> Need:
    """Returns a need that can be missing for one reason only."""
    return Need(name, lambda: None if is_there() else why)


# The time limit of a part in seconds, and the time after it when the tests are ended in any case.
MOST_SECONDS = 3600
GRACE = 120

NO_SERVER = "PostgreSQL 15 and psql are not installed"
# Without a program, a part fails instead of being skipped.
PROGRAM = Need("the program", lambda: None)
C_COMPILER = needed("a C compiler", lambda: shutil.which("cc"), "no C compiler is installed")
DPKG = needed("dpkg-deb", lambda: shutil.which("dpkg-deb"), "dpkg-deb is not installed")
MAKE = needed("make", lambda: shutil.which("make"), "make is not installed")
CALL_DRIVER = Need("call_driver", calls_checks.why_not_built)
REFUSED_CALLS = Need("refused_calls", refusals.why_not_built)
POSTGRESQL = needed("PostgreSQL 15", server.is_installed, NO_SERVER)
SERVER = needed("a server", server.is_installed, NO_SERVER)
PGLAST = needed(
    "pglast", lambda: python_with("pglast"), "pglast is not installed (apt-get install python3-pglast)")
MYPY = needed("mypy", lambda: python_with("mypy"), "mypy is not installed (apt-get install mypy)")
JSONSCHEMA = needed(
    "jsonschema", lambda: python_with("jsonschema"), "jsonschema is not installed (apt-get install python3-jsonschema)")
SETUPTOOLS = needed(
    "setuptools and wheel", lambda: python_with(NEEDED),
    "setuptools or wheel is not installed (apt-get install python3-setuptools python3-wheel python3-venv)")
PSYCOPG2 = needed(
    "psycopg2", lambda: python_with("psycopg2"), "psycopg2 is not installed (apt-get install python3-psycopg2)")
PGJDBC = needed(
    "pgjdbc", lambda: shutil.which("javac") and pathlib.Path(DRIVER).exists(),
    "Java 17 or pgjdbc is not installed (apt-get install openjdk-17-jdk-headless libpostgresql-jdbc-java)")


@dataclass(frozen=True)
class Part:
    """A part: its name, what it tests, what it needs, and its function as `module:function`."""

    name: str
    tests: str
    needs: tuple[Need, ...]
    function: str

    def why_skipped(self) -> str | None:
        """Returns why the part cannot run, or None if it can."""
        return next((why for need in self.needs if (why := need.why_missing()) is not None), None)

    def imported(self) -> Callable[..., None]:
        """Imports and returns the function."""
        module, name = self.function.split(":")
        found: Callable[..., None] = getattr(importlib.import_module(module), name)
        return found

    def line(self) -> str:
        """Returns the line that `--list` prints."""
        needs = f" (needs {', '.join(need.name for need in self.needs)})" if self.needs else ""
        return f"{self.name:14} {self.tests}{needs}"


@dataclass
class Shared:
    """The server that the parts share. It is started when the first part asks for it."""

    stack: contextlib.ExitStack
    start: Callable[[], contextlib.AbstractContextManager[object]] = server.server
    started: list[object] = field(default_factory=list)

    def server(self) -> object:
        """Returns the running server."""
        if not self.started:
            self.started.append(self.stack.enter_context(self.start()))
        return self.started[0]


@contextlib.contextmanager
def shared() -> Iterator[Shared]:
    """Provides what the parts share. The server is stopped at the end."""
    with contextlib.ExitStack() as stack:
        yield Shared(stack)


def run_parts(tally: Tally, parts: Sequence[Part], shares: Shared) -> None:
    """Runs parts one after the other, and prints what each counted and how long it took."""
    for part in parts:
        why = part.why_skipped()
        if why is not None:
            print(f"skipped: {part.name}, since {why}", flush=True)
            continue
        passed, failed, begun = tally.passed, tally.failed, time.monotonic()
        run_part(tally, part, shares)
        counts = f"{tally.passed - passed:,} passed, {tally.failed - failed:,} failed"
        print(f"{part.name}: {counts}, {time.monotonic() - begun:.1f} s", flush=True)


@contextlib.contextmanager
def ended_within(seconds: int) -> Iterator[None]:
    """Raises TimeoutError in a block that takes longer. If that does not end it either, prints a traceback of every
    thread and exits."""
    def raise_late(number: int, frame: object) -> None:
        raise TimeoutError(f"no end within {seconds} seconds")

    before = signal.signal(signal.SIGALRM, raise_late)
    signal.alarm(seconds)
    faulthandler.dump_traceback_later(seconds + GRACE, exit=True)
    try:
        yield
    finally:
        faulthandler.cancel_dump_traceback_later()
        signal.alarm(0)
        signal.signal(signal.SIGALRM, before)


def run_part(tally: Tally, part: Part, shares: Shared, seconds: int = MOST_SECONDS) -> None:
    """Runs one part. An exception counts as a failed check and ends only this part, after its traceback is printed. So
    does the time limit."""
    try:
        with ended_within(seconds):
            if PROGRAM in part.needs:
                prepare()
            given = [shares.server()] if SERVER in part.needs else []
            part.imported()(tally, *given)
    except Exception:
        tally.failed += 1
        print(f"failed: {part.name} raised\n{traceback.format_exc()}", end="")
