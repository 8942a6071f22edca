"""Tests that each subcommand has runs in which memory is refused, and runs in which a read or a write fails."""

import pathlib
import re

import failed.cases
import refused.cases
from tally import Tally

CRATES = pathlib.Path(__file__).resolve().parent.parent.parent / "crates"

# The file that declares the subcommands, and the form of a declaration.
SOURCE = "command_tree/src/tree.rt"
DECLARED = re.compile(r'Command::new\(\s*alloc,\s*"(\w+)"')

# Subcommands that listen have runs of their own, in the files serves.py and publishes.py of each folder.
LISTENS = {"serve", "publish"}


def check_subcommands(tally: Tally) -> None:
    """Compares the subcommands with the first arguments of the cases."""
    text = (CRATES / SOURCE).read_text(encoding="utf-8")
    subcommands = set(DECLARED.findall(text)) - {"pgshard"}
    tally.check("subcommands that listen", LISTENS - subcommands, set())
    for what, cases in ("memory is refused", refused.cases), ("a read or a write fails", failed.cases):
        words = {case.words[0] for case in cases.cases()}
        tally.check(f"subcommands without a run in which {what}", subcommands - words - LISTENS, set())
