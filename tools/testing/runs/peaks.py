"""Runs at all limits of a catalog at once, with inputs as long as allowed: 64 tables of 100 columns and 8 unique
indexes, 64 publications, 32 subscriptions, 64 atoms and 1,000 nodes in the filters of each table. No run uses more
memory than docs/OUTPUT.md says, and none is refused if it may use twice that."""

import re
import subprocess
import sys
import tempfile
from collections.abc import Iterator
from dataclasses import dataclass
from pathlib import Path

from programs import pgshard, program
from tally import Tally

from .case import ACCEPTED, SECONDS, two_parts
from .inputs import MAX_INPUT
from .simulations import three_parts

OUTPUT = Path(__file__).resolve().parent.parent.parent.parent / "docs" / "OUTPUT.md"

# What the page says of a run, in megabytes, and how many seconds of processor time a run may take.
FIGURE = re.compile(r"^\| `(\w+)` at all limits \| ([0-9,]+) MB \|$", re.M)

MEGABYTE = 1_000_000
PROCESSOR_SECONDS = 60

COMMANDS = 1_000
TABLES, COLUMNS, INDEXES, PUBLICATIONS, SUBSCRIPTIONS = 64, 100, 8, 64, 32

# The keys of each publication, and the most nodes of a table's filters.
WIDTH = 1_000
NODES = 1_000


@dataclass(frozen=True)
class Peak:
    """A run, with its status and the end of its output."""

    name: str
    words: tuple[str, ...]
    text: str
    status: int
    end: str

    def check(self, tally: Tally) -> None:
        """Makes the run twice: without a limit, and with twice the memory that the page gives."""
        figure = figures().get(self.words[0])
        if figure is None:
            tally.check(f"the memory of {self.name} in OUTPUT.md", "no figure", "a figure")
            return
        status, output, peak = self.run(2 * figure * MEGABYTE)
        tally.check(f"{self.name} with {2 * figure} MB", (status, output[-len(self.end):]), (self.status, self.end))
        tally.check(f"{self.name}: {peak / MEGABYTE:.0f} MB, at most {figure}", peak <= figure * MEGABYTE, True)

    def run(self, most: int) -> tuple[int, str, int]:
        """Returns a run's status, its output, and the most memory that it used, in bytes."""
        with tempfile.TemporaryFile() as given, tempfile.TemporaryFile() as written:
            given.write(self.text.encode())
            given.seek(0)
            ended = subprocess.run(
                [sys.executable, "-c", MEASURED, str(most), str(PROCESSOR_SECONDS), program(), *self.words], stdin=given,
                stdout=written, stderr=subprocess.PIPE)
            written.seek(0)
            return ended.returncode, written.read().decode(), int(ended.stderr)


# Runs a program with limits on memory and processor time, and prints its peak memory on standard error. This is done in
# a process of its own, since a child begins with its parent's memory.
MEASURED = """
import resource, subprocess, sys
most, seconds = map(int, sys.argv[1:3])
def limit():
    resource.setrlimit(resource.RLIMIT_AS, (most, most))
    resource.setrlimit(resource.RLIMIT_CPU, (seconds, seconds))
status = subprocess.run(sys.argv[3:], preexec_fn=limit).returncode
print(resource.getrusage(resource.RUSAGE_CHILDREN).ru_maxrss * 1024, file=sys.stderr)
sys.exit(status)
"""


def figures() -> dict[str, int]:
    """Returns the memory that the page gives for each run."""
    text = OUTPUT.read_text(encoding="utf-8")
    return {word: int(number.replace(",", "")) for word, number in FIGURE.findall(text)}


def cases() -> Iterator[Peak]:
    """Yields a run of each subcommand that reads one text and ends."""
    catalog = largest()
    certificates = made(catalog)
    yield Peak("make at all limits", ("make",), filled(catalog), 0, certificates)
    yield Peak("check at all limits", ("check",), filled(two_parts(catalog, certificates)), 0, ACCEPTED)
    yield eval_of_rows(catalog)
    yield simulation(catalog, certificates)


def largest() -> str:
    """Returns the catalog. The key of a table decides which publication has a row, and each subscriber has two
    publications."""
    statements = [table(number) for number in range(TABLES)]
    for number in range(PUBLICATIONS):
        condition = filter_of(number)
        entries = ", ".join(f"{long_name('t', at)} WHERE ({condition})" for at in range(TABLES))
        statements.append(f"CREATE PUBLICATION {long_name('p', number)} FOR TABLE {entries};\n")
    for number in range(SUBSCRIPTIONS):
        names = f"{long_name('p', number)}, {long_name('p', number + SUBSCRIPTIONS)}"
        statements.append(f"CREATE SUBSCRIPTION {long_name('s', number)} CONNECTION '' PUBLICATION {names};\n")
    return "".join(statements)


def table(number: int) -> str:
    """Returns a table with its indexes."""
    name = long_name("t", number)
    integers = ", ".join(f"{long_name('c', at)} integer NOT NULL" for at in range(COLUMNS - 1))
    indexes = "".join(
        f"CREATE UNIQUE INDEX {long_name(f'i{number}_', at)} ON {name} ({long_name('c', at)});\n"
        for at in range(1, 1 + INDEXES))
    last = f"{long_name('c', COLUMNS - 1)} text"
    identity = f"ALTER TABLE {name} REPLICA IDENTITY FULL;\n"
    return f"CREATE TABLE {name} ({integers}, {last}, PRIMARY KEY ({long_name('c', 0)}));\n{indexes}{identity}"


def filter_of(number: int) -> str:
    """Returns the filter for a publication's keys, with 63 atoms over all filters; the first filter has the 64th, and
    more parts until there are 1,000 nodes."""
    key = long_name("c", 0)
    below = f"{key} < {(number + 1) * WIDTH}"
    above = f"NOT {key} < {number * WIDTH}"
    if number == 0:
        others = f"({long_name('c', COLUMNS - 1)} = 'none' AND FALSE)"
        return f"{below} OR {others}{' OR FALSE' * ((NODES - nodes()) // 2)}"
    return above if number == PUBLICATIONS - 1 else f"{above} AND {below}"


def nodes() -> int:
    """Returns how many nodes the filters of a table have without the additional parts: atoms, NOT, AND and OR count as
    one each."""
    first, between, last = 5, 4, 2
    return first + (PUBLICATIONS - 2) * between + last


def long_name(kind: str, number: int) -> str:
    """Returns a name of 63 bytes."""
    return f"{kind}{number:0{63 - len(kind)}}"


def made(catalog: str) -> str:
    """Returns certificates, which `check` need not accept."""
    return pgshard("make", text=catalog, seconds=SECONDS)[1]


def filled(text: str) -> str:
    """Returns a catalog with a comment that makes the input of a run as long as allowed."""
    return f"--{' ' * (MAX_INPUT - len(text) - len('--' + chr(10)))}\n{text}"


def eval_of_rows(catalog: str) -> Peak:
    """Returns a run of eval on as many rows as fit. The last one goes to the last publication."""
    name, key = long_name("t", TABLES - 1), (PUBLICATIONS - 1) * WIDTH
    line = f"{row(key)}\n"
    rows = line * ((MAX_INPUT - len(two_parts(catalog, ""))) // len(line))
    values = ["false"] * (PUBLICATIONS - 1) + ["true"]
    end = " ".join(f"{long_name('p', number)}={value}" for number, value in enumerate(values))
    return Peak("eval at all limits", ("eval", name), two_parts(catalog, rows), 0, f"{end}\n")


def simulation(catalog: str, certificates: str) -> Peak:
    """Returns a simulation of as many commits of 1,000 rows as fit, which each subscriber is sent, and of all rows at
    the end."""
    opens = "".join(f"OPEN {number}; PUMP {number};\n" for number in range(SUBSCRIPTIONS))
    room = MAX_INPUT - len(three_parts(catalog, certificates, f"{opens}VIEW;\n"))
    longest = len(f"INSERT {long_name('t', 0)} {row(PUBLICATIONS * WIDTH)}, ")
    keys = room // (longest * TABLES)
    rows = [(at, number * PUBLICATIONS * WIDTH // keys) for number in range(keys) for at in range(TABLES)]
    inserts = [f"INSERT {long_name('t', at)} {row(key)}" for at, key in rows]
    commits = "".join(
        f"COMMIT {', '.join(inserts[start:start + COMMANDS])};\n" for start in range(0, len(inserts), COMMANDS))
    last = max(key for _, key in rows)
    end = f"{long_name('s', SUBSCRIPTIONS - 1)} public.{long_name('t', TABLES - 1)} {row(last)}\n"
    return Peak("simulate at all limits", ("simulate",), three_parts(catalog, certificates, f"{commits}{opens}VIEW;\n"), 0, end)


def row(number: int) -> str:
    """Returns a row of a table, in which the columns of unique indexes equal the key."""
    unique = ", ".join([str(number)] * (1 + INDEXES))
    others = ", ".join(["1"] * (COLUMNS - 2 - INDEXES))
    return f"({unique}, {others}, 'text')"
