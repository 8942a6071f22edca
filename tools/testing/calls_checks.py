"""Tests single calls of the libraries, which the program `call_driver` makes.

The expected answers come from the rules, from PostgreSQL's documentation or from a server, and never from the program.
"""

import os
import pathlib
import subprocess
from collections.abc import Iterable

from calls import topics
from calls.table import Call
from tally import Tally

TESTING = pathlib.Path(__file__).resolve().parent
BUILT = TESTING.parent.parent / "crates" / "call_driver" / "out" / "call_driver"
NAMED = os.environ.get("CALL_DRIVER")

# The time limit for the calls of one topic, in seconds.
SECONDS = 600

# How many characters of a wrong line are shown.
SHOWN = 200


def why_not_built() -> str | None:
    """Returns why the program cannot be run, or None if it can. A program that the environment names is always run."""
    return None if NAMED or BUILT.exists() else "the program call_driver is not built"


def answers(lines: Iterable[str]) -> list[str]:
    """Returns the program's answer to each line, or the reason why there is none."""
    try:
        run = subprocess.run(
            [NAMED or str(BUILT)], input="".join(f"{line}\n" for line in lines), encoding="utf-8", timeout=SECONDS,
            stdout=subprocess.PIPE, stderr=subprocess.PIPE)
    except subprocess.TimeoutExpired:
        return [f"no end within {SECONDS} seconds"]
    except OSError as error:
        return [str(error)]
    found = run.stdout.split("\n")[:-1]
    return found if run.returncode == 0 else [*found, f"status {run.returncode}: {run.stderr}"]


def short(text: str) -> str:
    """Returns the text, shortened if it is long."""
    return text if len(text) <= SHOWN else f"{text[:SHOWN]}.. ({len(text)} characters)"


def check_topic(tally: Tally, topic: str, calls: list[Call]) -> None:
    """Makes the calls of a topic, starting with an empty desk."""
    found = answers(call.line for call in calls)
    tally.check(f"{topic}: how many lines are answered", len(found), len(calls))
    for call, answer in zip(calls, found):
        is_right = answer == call.answer
        tally.check(f"{topic}: {short(call.line)}", (is_right, short(answer)), (True, short(call.answer)))


def check_calls(tally: Tally) -> None:
    """Makes the calls of all topics, and prints how many there are."""
    count = 0
    for topic, calls in topics():
        listed = list(calls)
        count += len(listed)
        check_topic(tally, topic, listed)
    print(f"{count} calls were made one by one")
