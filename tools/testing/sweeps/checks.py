"""Runs all cases, in as many processes as there are processors."""

import time

import processes
from random_cases.case import Case
from random_cases.comparison import Watched
from tally import Tally, show

from .case import SweepCase
from .closes import wrong_closes
from .dimensions import Row, missing_pairs, missing_values, rows
from .lines import cases

# The number of failing cases that are shown in detail.
MOST_SHOWN = 10

# A case made from a row of dimensions, or one in which a dimension goes through all its values.
Given = Row | Case


def check_sweeps(tally: Tally) -> None:
    """Checks that the cases cover each value and each pair of bands, and then runs the cases, and the logs with
    `close`."""
    begun, listed = time.monotonic(), rows()
    tally.check("values that no case has", missing_values(listed), [])
    tally.check("pairs of bands that no case has", missing_pairs(listed), [])
    runs = lines = shown = 0
    for name, faults, made, compared in processes.each(result, [*cases(), *listed]):
        runs, lines = runs + made, lines + compared
        shown += bool(faults)
        if faults and shown > MOST_SHOWN:
            tally.failed += 1
        else:
            tally.check(f"a case of the sweeps, {name}", faults[:3], [])
    tally.check("logs of 0 to 100 commits of which serve says something else when it closes", wrong_closes(), [])
    show(f"sweeps: {len(listed):,} cases in {runs:,} runs with {lines:,} lines, in {time.monotonic() - begun:.0f} seconds")


def result(given: Given) -> tuple[str, list[str], int, int]:
    """Runs a case."""
    case = given if isinstance(given, Case) else SweepCase(given)
    watched = Watched(None, False)
    faults = [*case.check(watched.run)]
    name = " ".join(given.words) if isinstance(given, Case) else str(given)
    return name, watched.gave_up + faults, len(watched.runs), case.lines()
