"""Tests calls in which each request for memory is refused in turn.

The program `refused_calls` makes the calls, and tests the state after each refusal. The refusals come from
`refusing.c`, which is compiled here.
"""

import os
import pathlib
import re
import subprocess
import tempfile

from random_cases.running import compiled
from tally import Tally

TESTING = pathlib.Path(__file__).resolve().parent
BUILT = TESTING.parent.parent / "crates" / "refused_calls" / "out" / "refused_calls"
NAMED = os.environ.get("REFUSED_CALLS")

CALLS = [
    "Book::commit", "Link::take", "Link::hear", "Subscriber::feed", "World::step", "make", "Memo", "Publisher::commit",
    "serve"]

# The time limit for the program, in seconds.
SECONDS = 600


def why_not_built() -> str | None:
    """Returns why the program cannot be run, or None if it can. A program that the environment names is always run."""
    return None if NAMED or BUILT.exists() else "the program refused_calls is not built"


def program() -> str:
    """Returns the program that makes the calls."""
    return NAMED or str(BUILT)


def check_refusals(tally: Tally) -> None:
    """Runs the program without refusals, and with them."""
    with tempfile.TemporaryDirectory() as folder:
        library = compiled(folder, "refusing")
        none = "".join(f"{call}: 0 refused\n" for call in CALLS)
        tally.check("calls with no request refused", run({}), (0, none, ""))
        check_refused(tally, *run({"LD_PRELOAD": library}))


def check_refused(tally: Tally, status: int | None, output: str, errors: str) -> None:
    """Checks a run with refusals: each call has met some, and their total is what the library reports."""
    met = re.findall("^(.*): ([1-9][0-9]*) refused$", output, re.M)
    tally.check(f"calls with each request refused, which wrote {output!r}", (status, [call for call, _ in met]), (0, CALLS))
    tally.check("how many requests were refused", errors, f"{sum(int(count) for _, count in met)} refused\n")


def run(variables: dict[str, str]) -> tuple[int | None, str, str]:
    """Returns the program's status, its standard output and its standard error."""
    try:
        answer = subprocess.run(
            [program()], stdin=subprocess.DEVNULL, stdout=subprocess.PIPE, stderr=subprocess.PIPE,
            encoding="utf-8", timeout=SECONDS, env=os.environ | variables)
    except subprocess.TimeoutExpired as error:
        return None, os.fsdecode(error.stdout or b""), f"no end within {SECONDS} seconds\n"
    except OSError as error:
        return None, "", f"{error}\n"
    return answer.returncode, answer.stdout, answer.stderr
