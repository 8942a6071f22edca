"""Tests that the tests of runs without memory, of runs whose reads and writes fail, and of streams with a changed byte
each catch a wrong program, and pass one that only copies the answers of the program under test."""

import contextlib
import io
import os
import pathlib
import subprocess
import tempfile
from collections import Counter
from collections.abc import Callable, Iterator

import failed.cases
import failed.checks
import refused.cases
import refused.checks
from changed.checks import Changes, first_difference
from changed.streams import STREAMS
from random_cases.running import compiled, program
from tally import Tally

TESTING = pathlib.Path(__file__).resolve().parent

# The tests are small: one run, in which each request and each call fails in turn.
WORDS = ("make",)
TEXT = b"CREATE TABLE t (id integer PRIMARY KEY); CREATE PUBLICATION p FOR TABLE t;\n"


def check_wrong_programs(tally: Tally) -> None:
    """Tests the wrong programs of each kind."""
    check_ignored_byte(tally)
    with tempfile.TemporaryDirectory() as folder, instead_of_program(folder):
        refusing, failing = compiled(folder, "refusing"), compiled(folder, "failing")
        assert refusing is not None and failing is not None
        case = refused.cases.Lines("make", WORDS, TEXT)
        met: Counter[str] = Counter()
        for wrong in "", "gives up", "swallows a refusal":
            if wrong == "swallows a refusal" and not met["refused"]:
                print(f"skipped: a program that {wrong}, since no request of {os.environ['REAL']} can be refused")
                continue
            found = failures(wrong, lambda own: met.update(refused.checks.check_case(own, case, refusing)))
            tally.check(f"whether runs without memory catch a program that {wrong or 'is right'}", found > 0, wrong != "")
        for wrong in "", "swallows a write fault":
            made = failed.cases.Case(WORDS, TEXT, 16, 1)
            found = failures(wrong, lambda own: failed.checks.check_case(own, made, failing))
            tally.check(f"whether runs that fail catch a program that {wrong or 'is right'}", found > 0, wrong != "")


@contextlib.contextmanager
def instead_of_program(folder: str) -> Iterator[None]:
    """Lets the tests run the wrong program, which in turn runs the real one."""
    file = f"{folder}/wrong"
    subprocess.run(["cc", "-static", "-O", "-o", file, TESTING / "wrong_program.c"], check=True)
    before = {name: os.environ.get(name) for name in ("PGSHARD", "REAL", "WRONG")}
    os.environ.update(REAL=program(), PGSHARD=file)
    try:
        yield
    finally:
        for name, value in before.items():
            os.environ.pop(name, None) if value is None else os.environ.update({name: value})


def failures(wrong: str, check: Callable[[Tally], object]) -> int:
    """Returns how many checks fail if the program is wrong in this way. What they print is discarded."""
    own = Tally()
    os.environ["WRONG"] = wrong
    with contextlib.redirect_stdout(io.StringIO()):
        check(own)
    return own.failed


def check_ignored_byte(tally: Tally) -> None:
    """Tests a program's answers on a stream with each byte changed: the right answers, and those of a program that
    ignores the value of a changed byte, that is, answers one change of the byte as another."""
    stream = min(STREAMS.values(), key=len)
    right = list(Changes(stream).answers())
    tally.check("the first difference of a right program", first_difference(Changes(stream), "".join(right).encode()), None)
    for place in range(len(stream)):
        at = 255 * place
        unlike = [it for it in range(at, at + 255) if body(right[it]) != body(right[at])]
        if unlike:
            wrong = [*right[:unlike[0]], head(right[unlike[0]]) + body(right[at]), *right[unlike[0] + 1:]]
            found = first_difference(Changes(stream), "".join(wrong).encode())
            tally.check(f"whether a program is caught that ignores the value of byte {place}", found is not None, True)


def head(answer: str) -> str:
    """Returns the line that names the change."""
    return answer.split("\n", 1)[0] + "\n"


def body(answer: str) -> str:
    """Returns the lines after it."""
    return answer.split("\n", 1)[1]
