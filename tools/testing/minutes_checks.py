"""Tests that gate_minutes passes on the output and status of the command that it runs, and recognizes the prover's
processes."""

import os
import pathlib
import subprocess
import sys
import tempfile
from collections import Counter

from tally import Tally

TOOLS = pathlib.Path(__file__).resolve().parent.parent
GATE_MINUTES = TOOLS / "gate_minutes"
sys.path.insert(0, str(TOOLS / "building"))

from minutes import Part, part_of, table

# Runs in place of the prover, long enough to be seen even on a busy machine.
PROVER = "#!/bin/sh\nsleep 5\n"

# Command lines, each with its folder and the part that should be found.
LINES = [
    ("/opt/rattle/bin/rattle check --crate-name one src/lib.rt --jobs 2", "/repo/crates/one", Part("one", "proofs")),
    ("/opt/rattle/bin/rattle build --crate-name one src/lib.rt -o one.rlib", "/repo/crates/one", Part("one", "proofs")),
    ("/opt/rattle/bin/rattle build --crate-name one --test src/lib.rt", "/repo/crates/one", Part("one", "tests")),
    ("/opt/rattle/bin/rattle check --crate-name one src/lib.rt --jobs 1", "/tmp/rt-edit-71-abc", Part("one", "edits")),
    ("rattle check --crate-name one --incremental /tmp/rt-edits-71/3", "/tmp/rt-edit-71-abc", Part("one", "edits", 3)),
    ("rattle check --crate-name one --incremental /tmp/rt-edits-71/seed", "/tmp/rt-edit-71-abc", Part("one", "seeds")),
    ("python3 -c code /opt/rattle/bin/rattle check --crate-name one src/lib.rt", "/repo", Part("one", "proofs")),
    ("/opt/rattle/bin/rattle fmt src/lib.rt", "/repo/crates/one", None),
    ("/opt/rattle/bin/rattle check src/lib.rt --crate-name", "/repo/crates/one", None),
    ("python3 /usr/local/bin/rt check --crate-name one", "/repo/crates/one", None),
    ("", "/repo", None),
]

TOTALS = Counter({
    Part("one", "proofs"): 60.0, Part("one", "seeds"): 30.0, Part("one", "edits"): 60.0,
    Part("two", "proofs"): 30.0, Part("two", "tests"): 240.0,
})
TABLE = """\
processor minutes       proofs     seeds     edits     tests       all
two                        0.5       0.0       0.0       4.0       4.5
one                        1.0       0.5       1.0       0.0       2.5
all crates                 1.5       0.5       1.0       4.0       7.0
over 40 seconds: one/row_is_lost, 52
the whole: 2.0 minutes, 7.5 of processors
"""


def check_minutes(tally: Tally) -> None:
    """Tests the parts and the table, and then whole runs."""
    for line, folder, part in LINES:
        tally.check(f"the part of {line or 'no command line'}", part_of(line.split(), folder), part)
    tally.check("a table of minutes", table(TOTALS, [("one/row_is_lost", 52.4)], 120.0, 450.0), TABLE)
    if os.path.exists("/proc/self/stat"):
        check_runs_of_commands(tally)
        check_parts_seen(tally)
        check_jobs(tally)
    else:
        print("skipped: runs of gate_minutes, since there is no /proc")


def check_runs_of_commands(tally: Tally) -> None:
    """Checks that a command's output and status are kept, and that the table comes before the last line."""
    status, before, last, errors = gate_minutes("sh", "-c", "echo one; echo two; echo why >&2; echo 1 failed; exit 3")
    tally.check("a command that fails", (status, before[:2], last, errors), (3, ["one", "two"], "1 failed\n", "why\n"))
    tally.check("its table", [line.split()[0] for line in before[2:]], ["processor", "all", "the"])
    status, _, last, _ = gate_minutes("sh", "-c", "echo one; printf two")
    tally.check("a last line that has no end", (status, last), (0, "two"))
    status, _, last, _ = gate_minutes("sh", "-c", "echo one; kill -KILL $$")
    tally.check("a command that is killed", (status, last), (137, "one\n"))
    status, before, _, _ = gate_minutes("sh", "-c", "seq 100000")
    tally.check("a long output", (status, before[:-3]), (0, [str(number) for number in range(1, 100_000)]))
    status, _, _, errors = gate_minutes("/none/there")
    tally.check("a command that is not there", (status, errors), (127, "/none/there: No such file or directory\n"))


def check_parts_seen(tally: Tally) -> None:
    """Checks that processes of the prover are seen while they run, one of them in the folder of an edit."""
    with tempfile.TemporaryDirectory() as folder:
        prover = pathlib.Path(folder) / "rattle"
        prover.write_text(PROVER)
        prover.chmod(0o755)
        edit = pathlib.Path(folder) / "rt-edit-1"
        edit.mkdir()
        run = f"{prover} check --crate-name"
        script = f"{run} one & (cd {edit} && exec {run} two) & {run} three --test; wait; echo last"
        _, before, last, _ = gate_minutes("sh", "-c", script)
    rows = [line.split() for line in before[1:-2]]
    tally.check("the crates that were seen", rows, [[name, *["0.0"] * 5] for name in ("one", "three", "two")])
    tally.check("the last line after them", last, "last\n")


def check_jobs(tally: Tally) -> None:
    """Checks that rt is told how many checks to run at once, unless a variable already says so."""
    others = {name: value for name, value in os.environ.items() if name != "RT_JOBS"}
    _, _, last, _ = gate_minutes("sh", "-c", "echo $RT_JOBS", environment=others)
    tally.check("checks at once", int(last) in range(1, len(os.sched_getaffinity(0)) + 1), True)
    _, _, last, _ = gate_minutes("sh", "-c", "echo $RT_JOBS", environment={**others, "RT_JOBS": "7"})
    tally.check("checks at once, as a variable says", last, "7\n")


def gate_minutes(*words: str, environment: dict[str, str] | None = None) -> tuple[int, list[str], str, str]:
    """Runs gate_minutes. Returns its status, its output except the last line, that line, and its standard error."""
    answer = subprocess.run(
        [GATE_MINUTES, *words], stdout=subprocess.PIPE, stderr=subprocess.PIPE, encoding="utf-8", env=environment
    )
    lines = answer.stdout.splitlines(keepends=True)
    if not lines:
        return answer.returncode, [], "", answer.stderr
    return answer.returncode, [line.removesuffix("\n") for line in lines[:-1]], lines[-1], answer.stderr
