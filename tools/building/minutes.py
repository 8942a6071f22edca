"""Measures a run of the gate: the processor minutes of each crate's proofs, seeds, must-fail edits and tests. A seed is
the check of the unchanged crate on which its edits are based.

The times are read from /proc for the prover's processes, twice a second. What a process does after the last reading is
not counted.
"""

import os
import pathlib
import resource
import select
import signal
import subprocess
import sys
import time
from collections import Counter
from typing import NamedTuple

# The time between two readings of the processes, in seconds.
PAUSE = 0.5
TICKS = os.sysconf("SC_CLK_TCK")
# An edit that takes more processor seconds than this is reported.
SLOW = 40
PARTS = ["proofs", "seeds", "edits", "tests"]


class Part(NamedTuple):
    """What a process of the prover works on."""

    crate: str
    kind: str
    # The number of the edit among those of its crate, if it has one.
    edit: int | None = None


class Process(NamedTuple):
    """What /proc says of a process: its parent, its start time, and its processor time without that of its children."""

    parent: int
    start: int
    seconds: float


def part_of(words: list[str], folder: str) -> Part | None:
    """Returns what the process with this command line works on in this folder. An edit is tried in a folder of its own.
    The unchanged crate is checked once in the same way, and the edits start from what that check keeps in a folder
    named `seed`."""
    for at, word in enumerate(words):
        if os.path.basename(word) == "rattle" and words[at + 1:at + 2] in (["check"], ["build"]):
            options = words[at + 2:]
            break
    else:
        return None
    if "--crate-name" not in options[:-1]:
        return None
    crate = options[options.index("--crate-name") + 1]
    if os.path.basename(folder).startswith("rt-edit-"):
        kept = options[options.index("--incremental") + 1] if "--incremental" in options[:-1] else ""
        name = os.path.basename(kept)
        return Part(crate, "seeds") if name == "seed" else Part(crate, "edits", int(name) if name.isdigit() else None)
    return Part(crate, "tests" if "--test" in options else "proofs")


def process_of(number: str) -> Process | None:
    """Returns a process, or None if it has ended."""
    try:
        with open(f"/proc/{number}/stat", "rb") as file:
            # The fields before these end with the program's name in parentheses, which may contain any bytes.
            fields = file.read().rpartition(b")")[2].split()
    except OSError:
        return None
    return Process(int(fields[1]), int(fields[19]), (int(fields[11]) + int(fields[12])) / TICKS)


def processes() -> dict[int, Process]:
    """Returns all processes that are running."""
    found = {int(number): process_of(number) for number in os.listdir("/proc") if number.isdigit()}
    return {number: process for number, process in found.items() if process is not None}


def part_now(number: int) -> Part | None:
    """Returns what a process works on."""
    try:
        with open(f"/proc/{number}/cmdline", "rb") as file:
            words = os.fsdecode(file.read()).split("\0")
        return part_of(words, os.readlink(f"/proc/{number}/cwd"))
    except OSError:
        return None


class Meter:
    """Adds up the processor time of all processes that a command starts."""

    def __init__(self, command: int):
        self.command = command
        self.parts: dict[tuple[int, int], Part] = {}
        self.seconds: dict[tuple[int, int], float] = {}

    def look(self) -> None:
        """Reads the processes. Several may have the same command line, since the prover starts copies of itself."""
        found = processes()
        for number, process in found.items():
            key = number, process.start
            if key not in self.parts and self.is_below(number, found):
                part = part_now(number)
                if part is not None:
                    self.parts[key] = part
            if key in self.parts:
                self.seconds[key] = process.seconds

    def is_below(self, number: int, found: dict[int, Process]) -> bool:
        """Returns whether a process was started by the command or by one of its descendants."""
        while number in found and number != self.command:
            number = found[number].parent
        return number == self.command

    def totals(self) -> Counter[Part]:
        """Returns the seconds of each part."""
        totals: Counter[Part] = Counter()
        for key, part in self.parts.items():
            totals[part._replace(edit=None)] += self.seconds[key]
        return totals

    def slow(self) -> list[tuple[str, float]]:
        """Returns the edits that took more than 40 seconds, with their seconds. Some versions of rt do not number edits.
        Then the edits of a crate that has several cannot be told apart, and are left out."""
        seconds: Counter[Part] = Counter()
        for key, part in self.parts.items():
            if part.kind == "edits" and (part.edit is not None or len(edits_of(part.crate)) == 1):
                seconds[part] += self.seconds[key]
        return [(name_of(part), each) for part, each in seconds.most_common() if each > SLOW]


def edits_of(crate: str) -> list[str]:
    """Returns the names of a crate's edits, in order."""
    return sorted(path.stem for path in pathlib.Path("crates", crate, "must-fail").glob("*.edit"))


def name_of(part: Part) -> str:
    """Returns the name of an edit. rt numbers the edits of a crate from 0, in the order of their names; an edit without
    a number is the only one."""
    edits = edits_of(part.crate)
    number = part.edit or 0
    return f"{part.crate}/{edits[number] if number < len(edits) else number}"


def row(name: str, cells: list[str]) -> str:
    """Formats a line of the table."""
    return f"{name:<20}" + "".join(f"{cell:>10}" for cell in cells)


def table(totals: Counter[Part], slow: list[tuple[str, float]], wall: float, whole: float) -> str:
    """Returns the table: the minutes of each part, the slow edits, and the minutes of the whole run, which also builds
    and runs programs."""
    def cells(crates: list[str]) -> list[str]:
        each = [sum(totals[Part(crate, kind)] for crate in crates) for kind in PARTS]
        return [f"{seconds / 60:.1f}" for seconds in [*each, sum(each)]]

    crates = list({part.crate for part in totals})
    crates.sort(key=lambda crate: (-sum(totals[Part(crate, kind)] for kind in PARTS), crate))
    lines = [row("processor minutes", [*PARTS, "all"])]
    lines += [row(crate, cells([crate])) for crate in crates]
    lines.append(row("all crates", cells(crates)))
    lines += [f"over {SLOW} seconds: {name}, {seconds:.0f}" for name, seconds in slow]
    lines.append(f"the whole: {wall / 60:.1f} minutes, {whole / 60:.1f} of processors")
    return "".join(f"{line}\n" for line in lines)


def write(output: bytes) -> None:
    """Writes to standard output, and flushes it."""
    sys.stdout.buffer.write(output)
    sys.stdout.buffer.flush()


def pass_on(command: subprocess.Popen[bytes], meter: Meter) -> bytes:
    """Copies a command's output except the last line, which is returned. Reads the processes meanwhile."""
    held = b""
    due = time.monotonic()
    while True:
        ready = select.select([command.stdout], [], [], PAUSE)[0]
        if time.monotonic() >= due:
            meter.look()
            due = time.monotonic() + PAUSE
        if ready:
            some = os.read(command.stdout.fileno(), 65_536)
            if not some:
                return held
            held += some
            begin = held.rfind(b"\n", 0, len(held) - 1) + 1
            write(held[:begin])
            held = held[begin:]
        elif command.poll() is not None:
            # A process that the command left running may keep the output open.
            return held


def run(words: list[str]) -> int:
    """Runs a command, prints the table before the last line of its output, and returns its status."""
    started = time.monotonic()
    try:
        command = subprocess.Popen(words, stdout=subprocess.PIPE)
    except OSError as error:
        print(f"{words[0]}: {error.strerror}", file=sys.stderr)
        return 127
    with command:
        signal.signal(signal.SIGTERM, lambda *_: command.terminate())
        meter = Meter(command.pid)
        last = pass_on(command, meter)
        status = command.wait()
    used = resource.getrusage(resource.RUSAGE_CHILDREN)
    write(table(meter.totals(), meter.slow(), time.monotonic() - started, used.ru_utime + used.ru_stime).encode())
    write(last)
    # The status that a shell reports for a command ended by a signal.
    return status if status >= 0 else 128 - status
