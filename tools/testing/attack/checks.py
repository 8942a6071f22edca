"""The part of tools/test: 300 random tables and 30 partition trees, with a new seed each time unless one is given."""

import os
import re
import subprocess

from programs import PGSHARD, TOOLS
from server import environment
from tally import Tally

DESIGNS, TOPOLOGIES = 300, 30
# Matches the counts in the last lines of an attack.
COUNTED = re.compile(r" *([\d,]+) (.*)")


def check_attack(tally: Tally) -> None:
    """Runs tools/attack. If something differs, its whole output is printed."""
    seed = os.environ.get("SEED")
    words = ["--designs", DESIGNS, "--topologies", TOPOLOGIES, *(["--seed", seed] if seed else [])]
    answer = subprocess.run(
        [TOOLS / "attack", *map(str, words)], stdout=subprocess.PIPE, stderr=subprocess.STDOUT, encoding="utf-8",
        env=environment() | {"PGSHARD": PGSHARD})
    lines = answer.stdout.splitlines()
    counts = {found[2]: int(found[1].replace(",", "")) for line in lines if (found := COUNTED.fullmatch(line))}
    if answer.returncode != 0:
        print(answer.stdout, end="")
    tally.check("the exit status of tools/attack", answer.returncode, 0)
    tally.check("the designs that were attacked", counts.get("designs", 0) >= DESIGNS + TOPOLOGIES, True)
    rows = counts.get("rows of tables that are sound", 0)
    tally.check("whether tables that are sound had rows", rows > 0, True)
    print(f"{lines[0]}: {counts.get('designs', 0)} designs, {counts.get('sound', 0)} sound with {rows:,} rows")
