"""Times of whole programs, the machine that they are taken on, and tables of them."""

import contextlib
import itertools
import os
import pathlib
import resource
import subprocess
import time
from dataclasses import dataclass

ROOT = pathlib.Path(__file__).resolve().parent.parent
BUILT = ROOT / "crates" / "publisher_main" / "out" / "publisher_main"


@dataclass(frozen=True)
class Setup:
    """The program that is measured, the core that it is kept on (None: any), and how often each run is made."""

    program: str
    core: int | None = None
    runs: int = 5

    @contextlib.contextmanager
    def pinned(self):
        """Keeps this process, and those that it starts, on the core."""
        if self.core is None:
            yield
            return
        before = os.sched_getaffinity(0)
        os.sched_setaffinity(0, {self.core})
        try:
            yield
        finally:
            os.sched_setaffinity(0, before)

    def milliseconds(self, words, path, runs=None):
        """The least processor time of some runs of a program whose input is a file, its start and its end included.

        Runs that take little are made up to five times as often, for half a second."""
        wanted, times = runs or self.runs, []
        with self.pinned():
            while len(times) < wanted or (len(times) < 5 * wanted and sum(times) < 500):
                times.append(1000 * processor_seconds(words, path))
        return min(times)

    def answer(self, words, path):
        """What a program prints on a file."""
        with open(path, "rb") as text:
            return subprocess.run(words, stdin=text, capture_output=True, text=True).stdout


def processor_seconds(words, path, check=False):
    """What a run takes of a processor, by itself and in the kernel, its start and its end included.

    It may be required to end well."""
    before = resource.getrusage(resource.RUSAGE_CHILDREN)
    with open(path, "rb") as text:
        subprocess.run(words, stdin=text, stdout=subprocess.DEVNULL, stderr=subprocess.DEVNULL, check=check)
    after = resource.getrusage(resource.RUSAGE_CHILDREN)
    return after.ru_utime + after.ru_stime - before.ru_utime - before.ru_stime


def processor_time(process):
    """The processor time that a process has taken, in microseconds, by its own clock (man 3 clock_getcpuclockid)."""
    return time.clock_gettime_ns((~process << 3) | 2) / 1e3


def machine():
    """The machine, and how much it does besides."""
    with open("/proc/cpuinfo") as file:
        models = [line.split(":", 1)[1].strip() for line in file if line.startswith("model name")]
    with open("/proc/meminfo") as file:
        memory = int(file.readline().split()[1]) / 1024**2
    load = " ".join(f"{it:.1f}" for it in os.getloadavg())
    return f"{len(models)} processors, {models[0]}, {memory:.0f} GB; load averages of 1, 5 and 15 minutes: {load}"


def shown(number):
    """A number with three digits that say something, or all if it has more; nothing for None."""
    if number is None:
        return ""
    return f"{number:,.0f}" if abs(number) >= 100 else f"{number:.3g}" if abs(number) >= 0.001 else f"{number:.3f}"


# The tables that an earlier run printed, in their order, as far as they are not yet compared.
EARLIER = []
# A figure has moved if it differs by more than this part of what it was.
MOVED = 0.05


def cells_in(line):
    """The cells of a line of a table."""
    return [it.strip() for it in line.strip().strip("|").split("|")]


def read_earlier(path):
    """Reads the tables that an earlier run printed, with which those of this run are compared."""
    lines = path.read_text().splitlines()
    for at, line in enumerate(lines):
        if line.startswith("|---"):
            rows = itertools.takewhile(lambda it: it.startswith("|"), lines[at + 1 :])
            EARLIER.append((cells_in(lines[at - 1]), [cells_in(it) for it in rows]))


def earlier_rows(heads):
    """The rows of the next earlier table with these heads, which is then compared; none if there is no such table."""
    found = next((it for it in EARLIER if it[0] == heads), None)
    if found is None:
        return []
    EARLIER.remove(found)
    return found[1]


def number_in(cell):
    """The number that a cell shows; None if it shows something else."""
    try:
        return float(cell.replace(",", ""))
    except ValueError:
        return None


def marked(cell, before):
    """The cell, with what it was before if that is a number from which it has moved."""
    now, was = number_in(cell), number_in(before)
    if now is None or was is None or abs(now - was) <= MOVED * abs(was):
        return cell
    return f"**{cell}**, was {before}"


def print_table(heads, rows):
    """Prints a table, each row as soon as it is known, and marks figures that have moved since an earlier run."""
    before = iter(earlier_rows(list(heads)))
    print("| " + " | ".join(heads) + " |")
    print("|" + "---|" * len(heads), flush=True)
    for row in rows:
        pairs = itertools.zip_longest([str(it) for it in row], next(before, []), fillvalue="")
        print("| " + " | ".join(marked(*it) for it in pairs) + " |", flush=True)
    print()
