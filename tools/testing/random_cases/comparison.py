"""Runs all cases of a seed, in as many processes as there are processors."""

import datetime
import functools
import os
import pathlib
import shutil
import tempfile
from collections import Counter
from collections.abc import Iterator
from dataclasses import dataclass, field

import processes
import read_back
from tally import Tally, show

from .case import Case
from .coverage import WANTED
from .plan import CASES, case_of, kind_of
from .running import Answer, compiled, program, run

# The number of failing cases that are shown in detail.
MOST_SHOWN = 20

# After this many runs that do not end, no more are made.
MOST_LATE = 20


# The number of cases in which the system may refuse memory, a read or a write; these are not compared.
MOST_REFUSED = 20


@dataclass
class Result:
    """The result of a case."""

    number: int
    faults: list[str] = field(default_factory=list)
    met: Counter[str] = field(default_factory=Counter)
    runs: int = 0
    lines: int = 0
    refused: int = 0
    late: int = 0
    # Whether the catalog of its input was shown, and then its text.
    shown: bool = False
    inputs: list[tuple[tuple[str, ...], bytes]] = field(default_factory=list)


class Watched:
    """Makes the runs of a case, and records what they were refused."""

    def __init__(self, library: str | None, expects_input: bool) -> None:
        self.library = library
        self.expects_input = expects_input
        self.runs: list[tuple[tuple[str, ...], bytes]] = []
        self.refused = 0
        self.late = 0
        self.gave_up: list[str] = []

    def run(self, words: tuple[str, ...], text: bytes) -> Answer:
        """Makes a run."""
        self.runs.append((words, text))
        answer = run(words, text, self.library)
        self.refused += answer.refused
        self.late += answer.status is None
        how = answer.giving_up()
        if how is not None and not answer.refused and not (self.expects_input and answer.output == "input\n"):
            self.gave_up.append(f"{words[0]} gives up without a cause: {how}")
        return answer


    def show(self, text: bytes) -> tuple[int | None, str]:
        """Makes a run of `show`."""
        answer = self.run(("show",), text)
        return answer.status, answer.output


def result_of(seed: int, library: str | None, number: int) -> Result:
    """Runs a case."""
    case = case_of(seed, number)
    watched = Watched(library, isinstance(case, Case) and case.output == "input\n")
    faults = [*case.check(watched.run)]
    fault = read_back.fault_of(watched.show, read_back.first_part(case.text)) if case.words[0] != "show" else None
    found = Result(number, watched.gave_up, case.met, len(watched.runs), case.lines(), watched.refused, watched.late)
    found.shown = fault == ""
    faults += [fault] if fault else []
    if not watched.refused:
        found.faults += faults
    if found.faults:
        found.inputs = watched.runs
    return found


def seed() -> int:
    """Returns the seed in the environment, or the day's seed."""
    return int(os.environ.get("SEED") or datetime.date.today().strftime("%Y%m%d"))


def results(seed: int, numbers: list[int]) -> Iterator[Result]:
    """Yields the results of cases in the order of their numbers."""
    with tempfile.TemporaryDirectory() as folder:
        made = functools.partial(result_of, seed, compiled(folder))
        yield from processes.each(made, numbers)


def check_random(tally: Tally) -> None:
    """Runs all cases of the seed in the environment."""
    check_seed(tally, seed())


def check_seed(tally: Tally, seed: int) -> None:
    """Runs all cases of a seed. Each case is a check, and so is each feature that they must have."""
    if not pathlib.Path(program()).exists():
        return tally.check("the program that random cases try", f"{program()} is not there", "it is built")
    if shutil.which("cc") is None:
        print("skipped: counts of what the system refuses in random cases, since no C compiler is installed")
    met: Counter[str] = Counter()
    total: Counter[str] = Counter()
    for result in results(seed, list(range(CASES))):
        tell(tally, seed, result)
        met += result.met
        refused = min(result.refused, 1)
        total += Counter(
            cases=1, runs=result.runs, lines=result.lines, refused=refused, late=result.late, shown=result.shown)
        if total["late"] > MOST_LATE:
            break
    tally.check("runs of random cases that do not end", total["late"], 0)
    tally.check(f"what the cases of seed {seed} lack", sorted(set(WANTED) - set(met)), [])
    tally.check("whether the system refused too much to random cases", total["refused"] > MOST_REFUSED, False)
    print(
        f"random cases of seed {seed}: {total['cases']:,}, in {total['runs']:,} runs with {total['lines']:,} lines; "
        f"of {total['shown']:,} the catalog was shown, and its text shown again; "
        f"{total['refused']} were not compared, since the system refused memory, a read or a write")


def tell(tally: Tally, seed: int, result: Result) -> None:
    """Counts a case. The first ones that fail are printed in detail, and their inputs are kept."""
    name = f"random case {result.number} ({kind_of(result.number)[0]}) of seed {seed}"
    if not result.faults or tally.failed > MOST_SHOWN:
        tally.passed += not result.faults
        tally.failed += bool(result.faults)
        return
    tally.check(name, "otherwise", "as the model says")
    for fault in result.faults:
        show(f"  {fault}")
    for words, text in result.inputs:
        with tempfile.NamedTemporaryFile(prefix=f"pgshard-{seed}-{result.number}-", delete=False) as file:
            file.write(text)
        show(f"  the input of {' '.join(words)} is in {file.name}")
    show(f"  again: tools/testing/random_runs.py --seed {seed} --case {result.number}")
