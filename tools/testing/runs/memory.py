"""The memory that the program uses after commits that are refused, and after rows that were inserted and deleted."""

import os
import re
import subprocess
import tempfile
from collections.abc import Iterator
from dataclasses import dataclass

from programs import decoded
from random_cases.running import compiled, program
from tally import Tally

from .case import SECONDS, ended
from .catalogs import C
from .simulations import text_of, three_parts

CATALOG = """\
CREATE TABLE t (id integer PRIMARY KEY, code integer NOT NULL, note text);
CREATE UNIQUE INDEX t_code ON t (code);
CREATE TABLE u (id bigint PRIMARY KEY, flag boolean);
CREATE PUBLICATION pa FOR TABLE t WHERE (id < 100), TABLE u WHERE (id < 100);
CREATE PUBLICATION pb FOR TABLE t WHERE (id >= 100), TABLE u WHERE (id >= 100);
CREATE SUBSCRIPTION s0 CONNECTION '' PUBLICATION pa;
CREATE SUBSCRIPTION s1 CONNECTION '' PUBLICATION pb;
"""

# Steps without effect, whose lines are printed in several writes.
NOTHING, NOTHING_LINE = "TAKE 0;\n", "not open"
PAUSE = 4_000

MANY = 10_000
KEYS = range(100, 100 + MANY)
COMMANDS = 1_000

# Two counts for a program that has kept nothing may differ by this many blocks and bytes: a line may be incomplete, and
# a block may be slightly longer than requested.
SOME_BLOCKS = 5
SOME_BYTES = 4_000

# The log keeps blocks for each commit: one for the commit, and one for its list of changes; and for a commit of several
# changes, two for the sets of those who get each of them. For a row that is inserted, and for the key of a row that is
# deleted, it keeps a shared block, one for the list of values, and one for the row's text. The lists with which a
# commit is undone keep the size of the largest commit, which is about 60 bytes for each of its changes.
COMMIT_BLOCKS = 2
SET_BLOCKS = 2
ROW_BLOCKS = 5

COUNTS = re.compile("([0-9]+) blocks, ([0-9]+) bytes")


@dataclass(frozen=True)
class Script:
    """Steps, each with its line."""

    steps: list[str]
    lines: list[str]

    def __add__(self, other: "Script") -> "Script":
        return Script(self.steps + other.steps, self.lines + other.lines)

    def of_nothing(self) -> "Script":
        """Returns as many steps of the same lengths that have no effect."""
        return Script([f"{NOTHING.strip():{len(it) - 1}}\n" for it in self.steps], [NOTHING_LINE] * len(self.steps))


PAUSED = Script([NOTHING] * PAUSE, [NOTHING_LINE] * PAUSE)


@dataclass(frozen=True)
class Kept:
    """Steps that follow others. Compared with as many steps without effect, the memory after them is greater by this
    many blocks, and by at most this many bytes."""

    name: str
    before: Script
    script: Script
    blocks: int = 0
    bytes: int = 0
    words: tuple[str, ...] = ()
    catalog: str = CATALOG

    def check(self, tally: Tally) -> None:
        """Makes both runs, if there is a C compiler."""
        with tempfile.TemporaryDirectory() as folder:
            library = compiled(folder, "counting")
            if library is None:
                print(f"skipped: memory after {self.name}, since no C compiler is installed")
                return
            found, plain = [self.size(tally, library, it) for it in (self.script, self.script.of_nothing())]
        blocks, more = found[0] - plain[0], found[1] - plain[1]
        is_right = abs(blocks - self.blocks) <= SOME_BLOCKS and more <= self.bytes + SOME_BYTES
        tally.check(f"memory after {self.name}, which is {blocks} blocks and {more} bytes more", is_right, True)

    def size(self, tally: Tally, library: str, script: Script) -> tuple[int, int]:
        """Returns the memory after these steps, in blocks and in bytes."""
        script = self.before + script + PAUSED
        text = three_parts(self.catalog, C + C, "".join(script.steps))
        # The input is a file, since the buffer of an input that comes in pieces depends on the pieces.
        with tempfile.TemporaryFile() as file:
            file.write(text.encode())
            file.seek(0)
            try:
                answer = subprocess.run(
                    [program(), "simulate", *self.words], stdin=file, stdout=subprocess.PIPE, stderr=subprocess.PIPE,
                    timeout=SECONDS, env=os.environ | {"LD_PRELOAD": library})
            except (OSError, subprocess.TimeoutExpired) as fault:
                tally.check(self.name, f"{type(fault).__name__}: {fault}", "no fault")
                return 0, 0
        tally.check(self.name, ended(answer.returncode, decoded(answer.stdout)), ended(0, text_of(script.lines)))
        # The last write is made when the book is gone, and the writes before it in the pause.
        counts = COUNTS.findall(answer.stderr.decode())
        blocks, size = counts[-2] if len(counts) > 1 else (0, 0)
        return int(blocks), int(size)


def commit(*commands: str) -> str:
    return f"COMMIT {', '.join(commands)};\n"


def commits(lists: list[list[str]], first: int = 1) -> Script:
    """Returns commits that are accepted, from this number on."""
    return Script([commit(*it) for it in lists], [f"commit {first + at}" for at in range(len(lists))])


def insert(key: int) -> str:
    return f"INSERT t ({key}, {key}, 'the text of {key:06}')"


# Rows that exist, and commands on them that have no fault. # is replaced by a number that is new each time.
FIRST = commits([[insert(key) for key in range(1, 51)] + [f"INSERT u ({key}, TRUE)" for key in range(1, 51)]])
GOOD = [
    "INSERT t (#, #, 'the text of #')", "UPDATE t (1) (1, 1, 'another text')", "UPDATE t (2) (-#, -#, NULL)",
    "DELETE t (3)", "INSERT u (#, FALSE)", "DELETE u (4)", "TRUNCATE (u)", "INSERT u (#, NULL)",
]

# Commands that have a fault after those, or without them, and the fault.
BAD: list[tuple[str, str]] = [
    ("INSERT t (1, -1, NULL)", "DuplicateKey"),
    ("INSERT t (-1, 5, 'the code of 5')", "DuplicateKey"),
    ("UPDATE t (6) (7, 6, NULL)", "DuplicateKey"),
    ("UPDATE t (6) (6, 7, NULL)", "DuplicateKey"),
    ("UPDATE t (-2) (6, 7, NULL)", "NoSuchRow"),
    ("DELETE u (-3)", "NoSuchRow"),
    ("INSERT t (NULL, 1, 'no key')", "Row NullInNotNull 0"),
    ("INSERT t (2147483648, 1, 'too large')", "Row OutOfRange 0"),
    ("UPDATE t (6) (6, 6)", "Row Width"),
    ("INSERT u (1, 'no truth value')", "Row WrongType 1"),
]


def refused(number: int) -> tuple[str, str]:
    """Returns a commit that is refused, and its line: it has a fault after some valid commands, no command, or too
    many."""
    if number % 100 == 98:
        return "COMMIT;\n", "refused EmptyTransaction"
    if number % 100 == 99:
        return commit(*[f"DELETE u ({number})"] * (COMMANDS + 1)), "refused TooManyCommands"
    bad, fault = BAD[number % len(BAD)]
    good = GOOD[:number // len(BAD) % (len(GOOD) + 1)]
    return commit(*good, bad).replace("#", str(1_000 + number)), f"refused At {len(good) + 1} {fault}"


def refusals(numbers: range) -> Script:
    """Returns commits that are refused."""
    pairs = [refused(number) for number in numbers]
    return Script([step for step, _ in pairs], [line for _, line in pairs])


def one_by_one() -> list[list[str]]:
    """Returns rows, each of which is inserted by a commit, and deleted by the next one."""
    return [[command] for key in KEYS for command in (insert(key), f"DELETE t ({key})")]


def all_at_once() -> list[list[str]]:
    """Returns rows that are inserted and then deleted, many in a commit."""
    commands = [insert(key) for key in KEYS] + [f"DELETE t ({key})" for key in KEYS]
    return [commands[at:at + COMMANDS] for at in range(0, len(commands), COMMANDS)]


def cases() -> Iterator[Kept]:
    """Yields runs of simulate in which a library counts the memory that the program uses."""
    yield Kept("10,000 refused commits", FIRST + refusals(range(100)), refusals(range(100, 100 + MANY)))
    full = Script([commit(insert(key)) for key in KEYS], ["refused LogFull"] * MANY)
    yield Kept("10,000 commits into a full log", FIRST, full, words=("--limit", "1"))
    ways = ("one by one", one_by_one(), 0, 630), ("1,000 at once", all_at_once(), SET_BLOCKS, 410)
    for name, lists, sets, most in ways:
        blocks = (COMMIT_BLOCKS + sets) * len(lists) + ROW_BLOCKS * MANY
        yield Kept(f"10,000 rows that come and go {name}", FIRST, commits(lists, 2), blocks, most * MANY)
