#!/usr/bin/env python3
"""Times of the program's commands, as the tables of bench/README.md have them.

    bench/run.py [--program FILE] [--core N] [--first] [--runs N] [--before FILE] [PART ..]

The parts are start, large, eval, worst, check, make, book, send, apply, messages, serve and publish; without one, all
are run. The program has to be built, which the script `pgshard` does.
PostgreSQL 15, z3, valgrind and rustc are left out where they are not installed. --before names a file with what an
earlier run printed: each figure that moved by more than 5% since then is marked, with what it was.
"""

import argparse
import os
import pathlib
import sys
import tempfile

import applying
import book
import checking
import evaluation
import messages
import publishing
import sending
import serving
import sharding
import starting
import worst
from measuring import BUILT, Setup, machine, read_earlier

PARTS = {
    "start": ("The start of the program", starting.measure_small),
    "large": ("Catalogs near the limits", starting.measure_large),
    "eval": ("eval", evaluation.measure),
    "worst": ("The worst known inputs of eval", worst.measure),
    "check": ("check", checking.measure),
    "make": ("make", sharding.measure),
    "book": ("The book", book.measure),
    "send": ("The sender's side", sending.measure),
    "apply": ("The subscriber", applying.measure),
    "messages": ("Messages", messages.measure),
    "serve": ("serve", serving.measure),
    "publish": ("publish", publishing.measure),
}


def arguments():
    parser = argparse.ArgumentParser(description="Times of the program's commands.")
    parser.add_argument("--program", default=str(BUILT), help="the built program")
    parser.add_argument("--core", type=int, help="keep what is measured on this processor")
    parser.add_argument("--first", action="store_true", help="as root: run before other work on the machine")
    parser.add_argument("--runs", type=int, default=5, help="how often each run is made")
    parser.add_argument("--before", type=pathlib.Path, help="what an earlier run printed: figures that moved by more "
                        "than 5%% since then are marked")
    parser.add_argument("parts", nargs="*", metavar="PART", help=f"of {', '.join(PARTS)}; without one, all")
    return parser.parse_args()


def main():
    given = arguments()
    unknown = [it for it in given.parts if it not in PARTS]
    if unknown:
        sys.exit(f"there is no part {unknown[0]}; the parts are {', '.join(PARTS)}")
    if not os.access(given.program, os.X_OK):
        sys.exit(f"{given.program} is not built; ./pgshard make < examples/shop.sql builds it")
    if given.before:
        read_earlier(given.before)
    if given.first:
        os.setpriority(os.PRIO_PROCESS, 0, -20)
    setup = Setup(given.program, given.core, given.runs)
    print(f"{machine()}\n")
    with tempfile.TemporaryDirectory(prefix="pgshard_bench_") as folder:
        for it in given.parts or PARTS:
            heading, measure = PARTS[it]
            print(f"## {heading}\n")
            measure(setup, pathlib.Path(folder))
    print(machine())


if __name__ == "__main__":
    main()
