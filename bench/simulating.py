"""Runs of `simulate` from which the cost of commits, of what is said to slots and of subscribers is taken apart.

A script has the rows that are there before, and then three blocks: the changes, TAKE for each commit and slot, and
DELIVER for each slot. Blocks have little to do where they come too early: TAKE answers `idle` before there is a commit,
DELIVER delivers nothing, and a full log refuses each commit before it looks at it. So the four orders below are runs of
one text that is read and answered at the same cost, and each does one thing more than the one before it.
"""

import fcntl
import functools
import os
import pathlib
import subprocess
import tempfile
from collections import Counter

import counting
from measuring import processor_time

ORDERS = {
    "refused": ("takes", "delivers", "changes"),
    "committed": ("takes", "delivers", "changes"),
    "taken": ("delivers", "changes", "takes"),
    "delivered": ("changes", "takes", "delivers"),
}
# The answers fill the program's buffer of 8,192 bytes three times: what came before them is written, and the program
# waits for room in the pipe before it comes to what follows.
MARKER = ["TAKE 99;\n"] * 1_800
ALL = 1_000_000_000


def blocks(load):
    """The steps of each block; none for slots where none are open."""
    commits = -(-load.rows // load.in_a_commit)
    return {
        "changes": load.changes(),
        "takes": [f"TAKE {at};\n" for at in range(load.slots) for _ in range(commits)],
        "delivers": [f"DELIVER {at} {ALL};\n" for at in range(load.slots)],
    }


def opened(load):
    """The rows before, which all slots are told about."""
    return [*load.prefix(), *(f"OPEN {at};\nPUMP {at};\n" for at in range(load.slots))]


@functools.cache
def certificates(program, catalog):
    return subprocess.run([program, "make"], input=catalog, capture_output=True, text=True, check=True).stdout


def write_input(setup, load, parts, path):
    """Writes an input whose script has these lists of steps, and gives how many lines are answered up to each one's
    end."""
    catalog = load.catalog()
    ends, lines = [], 0
    with open(path, "w") as file:
        file.write(f"{catalog}%%\n{certificates(setup.program, catalog)}%%\n")
        for steps in parts:
            file.writelines([*steps, *MARKER])
            lines += "".join(steps).count(";")
            ends.append(lines)
            lines += len(MARKER)
    return ends


def words(setup, load, order):
    """The words of a run. Where changes are to be refused the log takes no more than the rows before."""
    limit = len(load.prefix()) if order == "refused" else ALL
    return [setup.program, "simulate", "--limit", str(limit)]


def check_answers(load, order, answers):
    """That nothing else happened than what is measured."""
    found = Counter(line.split()[0] for line in answers.split("\n") if line)
    commits = -(-load.rows // load.in_a_commit)
    wanted = {"refused": commits if order == "refused" else 0, "out": 0, "not": 0}
    if order in ("taken", "delivered", "at once"):
        wanted["idle"] = 0
    if any(found[it] != count for it, count in wanted.items()):
        raise RuntimeError(f"{load} in the order {order!r} was answered {found}")


@functools.cache
def instructions(setup, load, order):
    """How many instructions a run in this order takes up to the end of its steps."""
    if not counting.is_installed():
        return None
    with tempfile.TemporaryDirectory(prefix="pgshard_bench_") as folder:
        path = pathlib.Path(folder) / "script"
        steps = blocks(load)
        ends = write_input(setup, load, [opened(load), *(steps[it] for it in ORDERS[order])], path)
        check_answers(load, order, setup.answer(words(setup, load, order), path))
        return counting.instructions_until(ends[-1], words(setup, load, order), path)


def one_run(setup, command, path, ends):
    """The processor time up to each of these lines, in µs, and all that was written."""
    times, pieces, lines = [], [], 0
    with setup.pinned(), open(path, "rb") as text, subprocess.Popen(command, stdin=text, stdout=subprocess.PIPE) as process:
        fcntl.fcntl(process.stdout, fcntl.F_SETPIPE_SZ, counting.PIPE)
        while piece := os.read(process.stdout.fileno(), counting.PIPE):
            pieces.append(piece)
            lines += piece.count(b"\n")
            while len(times) < len(ends) and lines >= ends[len(times)]:
                times.append(processor_time(process.pid))
    return times, b"".join(pieces).decode()


def phase_times(setup, load, order, parts):
    """The least processor time of each list of steps but the first, in µs."""
    with tempfile.TemporaryDirectory(prefix="pgshard_bench_") as folder:
        path = pathlib.Path(folder) / "script"
        ends = write_input(setup, load, parts, path)
        runs = []
        for _ in range(setup.runs):
            times, answers = one_run(setup, words(setup, load, order), path, ends)
            check_answers(load, order, answers)
            runs.append([after - before for before, after in zip(times, times[1:])])
    return [min(it) for it in zip(*runs)]


@functools.cache
def times(setup, load, order):
    """The processor time of each block in this order, in µs."""
    steps = blocks(load)
    found = phase_times(setup, load, order, [opened(load), *(steps[it] for it in ORDERS[order])])
    return dict(zip(ORDERS[order], found))


@functools.cache
def time_at_once(setup, load, delivers):
    """The processor time of all, where each commit is taken as soon as it is made, and delivered or not."""
    more = [f"TAKE {at};\n" for at in range(load.slots)]
    more += [f"DELIVER {at} {ALL};\n" for at in range(load.slots)] * delivers
    steps = [step for change in load.changes() for step in (change, *more)]
    return phase_times(setup, load, "at once", [opened(load), steps])[0]
