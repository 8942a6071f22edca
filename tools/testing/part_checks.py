"""Tests that tools/test runs the named parts, continues after a part that fails or raises, and reports what each part
counted."""

import contextlib
import io
import pathlib
import subprocess
import sys
import threading
from collections.abc import Iterator

from beside import beside, halves
from part_runner import SERVER, Need, Part, Shared, run_part, run_parts
from parts import PARTS
from tally import Tally

TEST = pathlib.Path(__file__).resolve().parent.parent / "test"

MISSING = Need("a thing", lambda: "there is no such thing")


def check_parts(tally: Tally) -> None:
    """Tests the table, the runner with parts of its own, and the command line."""
    names = [part.name for part in PARTS]
    tally.check("names of parts that occur twice", sorted({name for name in names if names.count(name) > 1}), [])
    for part in PARTS:
        tally.check(f"whether the function of {part.name} can be imported", callable(part.imported()), True)
    check_runner(tally)
    check_time(tally)
    check_server(tally)
    check_beside(tally)
    check_command_line(tally)


def passes(tally: Tally) -> None:
    """A part that passes."""
    tally.check("one", 1, 1)


def fails(tally: Tally) -> None:
    """A part that fails."""
    tally.check("one", 1, 2)


def raises(tally: Tally) -> None:
    """A part that passes a check and then raises."""
    tally.check("one", 1, 1)
    raise ValueError("broken")


def never_ends(tally: Tally) -> None:
    """A part that passes a check and then waits for ever."""
    tally.check("one", 1, 1)
    threading.Event().wait()


def takes_server(tally: Tally, server: str) -> None:
    """A part that needs the server."""
    tally.check("the server", server, "started")


def run(parts: list[Part], shares: Shared) -> tuple[int, int, str]:
    """Runs some parts. Returns how many checks passed and failed, and what was printed."""
    own, printed = Tally(), io.StringIO()
    with contextlib.redirect_stdout(printed):
        run_parts(own, parts, shares)
    return own.passed, own.failed, printed.getvalue()


def check_runner(tally: Tally) -> None:
    """Tests a part that fails, one that raises, one that cannot be imported, and one whose need is missing."""
    parts = [
        Part("fails", "", (), "part_checks:fails"),
        Part("raises", "", (), "part_checks:raises"),
        Part("missing", "", (), "part_checks:no_such_function"),
        Part("skipped", "", (MISSING,), "part_checks:fails"),
        Part("passes", "", (), "part_checks:passes"),
    ]
    with contextlib.ExitStack() as stack:
        passed, failed, printed = run(parts, Shared(stack))
    tally.check("parts that fail and raise, and the part after them", (passed, failed), (2, 3))
    for line in "failed: raises raised", "Traceback", "ValueError: broken", "failed: missing raised":
        tally.check(f"what is printed of parts that raise: {line}", line in printed, True)
    tally.check("a part that is skipped", "skipped: skipped, since there is no such thing\n" in printed, True)
    tally.check("the part after them", printed.splitlines()[-1].startswith("passes: 1 passed, 0 failed, "), True)


def check_time(tally: Tally) -> None:
    """Tests a part that does not end."""
    own, printed = Tally(), io.StringIO()
    with contextlib.redirect_stdout(printed), contextlib.ExitStack() as stack:
        run_part(own, Part("late", "", (), "part_checks:never_ends"), Shared(stack), seconds=1)
    tally.check("a part that does not end", (own.passed, own.failed), (1, 1))
    for line in "in never_ends", "TimeoutError: no end within 1 seconds":
        tally.check(f"what is printed of a part that does not end: {line}", line in printed.getvalue(), True)


def check_server(tally: Tally) -> None:
    """Checks that the first part that needs the server starts it, once, and that it is stopped at the end."""
    told: list[str] = []

    @contextlib.contextmanager
    def start() -> Iterator[str]:
        told.append("start")
        yield "started"
        told.append("stop")

    needs = [Part("takes", "", (SERVER,), "part_checks:takes_server")]
    without = [Part("passes", "", (), "part_checks:passes")]
    if SERVER.why_missing() is not None:
        return
    with contextlib.ExitStack() as stack:
        shares = Shared(stack, start)
        run(without, shares)
        tally.check("starts of the server before a part needs it", told, [])
        tally.check("parts with the server", run(needs + needs, shares)[:2], (2, 0))
    tally.check("starts and stops of the server", told, ["start", "stop"])


def check_beside(tally: Tally) -> None:
    """Tests which parts run beside the others, and what is printed and counted of them."""
    without, with_server = halves(PARTS)
    tally.check("the parts of both processes", sorted(it.name for it in [*without, *with_server]),
                sorted(it.name for it in PARTS))
    tally.check("parts without a server that need one", [it.name for it in without if SERVER in it.needs], [])
    for said, counts, printed in [
        ("one: 2 passed, 1 failed, 0.1 s\n2 passed, 1 failed\n", (3, 1), "first\none: 2 passed, 1 failed, 0.1 s\n"),
        ("broken\n", (1, 1), "first\nbroken\nfailed: the parts that need a server ended with status 3, and did not "
                             "count their checks\n"),
    ]:
        own, output = Tally(), io.StringIO()
        code = f"import sys; sys.stdout.write({said!r}); sys.exit(3)"
        with contextlib.redirect_stdout(output), beside(own, [sys.executable, "-c", code]):
            print("first")
            passes(own)
        tally.check(f"the counts with a process that says {said!r}", (own.passed, own.failed), counts)
        tally.check(f"what is printed with a process that says {said!r}", output.getvalue(), printed)


def check_command_line(tally: Tally) -> None:
    """Tests names of parts, the list, the seed and usage errors."""
    listed = test("--list")
    tally.check("the status of --list", listed.returncode, 0)
    tally.check("the parts of --list", [line.split()[0] for line in listed.stdout.splitlines()], [it.name for it in PARTS])
    unknown = test("documents", "nope")
    tally.check("the status of a part that is not there", unknown.returncode, 2)
    tally.check("what is said of it", "no part is named nope" in unknown.stderr, True)
    one = test("building", "--seed", "7")
    lines = one.stdout.splitlines()
    tally.check("the lines of one part", [line.split(":")[0] for line in lines[:2]], ["seed 7", "building"])
    tally.check("the last line of one part", lines[-1:], [lines[1].split(": ")[1].rsplit(",", 1)[0]] if lines[1:] else [])


def test(*words: str) -> subprocess.CompletedProcess[str]:
    """Runs tools/test."""
    return subprocess.run([sys.executable, TEST, *words], capture_output=True, encoding="utf-8", timeout=600)
