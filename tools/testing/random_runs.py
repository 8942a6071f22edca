#!/usr/bin/env python3
"""Compares pgshard with the model on random cases: all cases of a seed, as tools/test does, or a single one.

    tools/testing/random_runs.py [--seed N] [--case N] [--save FILE]

The default seed is the environment variable SEED, or the date. The variable PGSHARD names a program to run instead of
the built one. With --save, the input of a case is written to a file, and nothing is run.
"""

import argparse
import pathlib
import sys

sys.dont_write_bytecode = True
sys.path.insert(0, str(pathlib.Path(__file__).resolve().parent))

from random_cases.comparison import check_seed, results, seed, tell
from random_cases.plan import case_of
from tally import Tally


def main() -> int:
    """Runs the cases, and returns 1 if one fails."""
    parser = argparse.ArgumentParser(description=__doc__.splitlines()[0])
    parser.add_argument("--seed", type=int, default=seed())
    parser.add_argument("--case", type=int)
    parser.add_argument("--save", metavar="FILE")
    options = parser.parse_args()
    tally = Tally()
    if options.save:
        case = case_of(options.seed, options.case)
        pathlib.Path(options.save).write_bytes(case.text)
        print(" ".join(case.words))
        return 0
    if options.case is None:
        check_seed(tally, options.seed)
    else:
        for result in results(options.seed, [options.case]):
            tell(tally, options.seed, result)
    print(f"{tally.passed} passed, {tally.failed} failed")
    return 1 if tally.failed else 0


if __name__ == "__main__":
    sys.exit(main())
