"""The input of a run of pgshard, and its expected answer."""

import resource
from dataclasses import dataclass

from programs import pgshard
from tally import Tally

# The output of check for a sound sharding.
ACCEPTED = "accepted\n"

# The time limit of a run, also on a busy machine; and how many seconds of processor time a run with a long input may
# take, which it would exceed if its time grew quadratically.
SECONDS = 300
LONG_SECONDS = 20


@dataclass(frozen=True)
class Outline:
    """How an output begins and ends, a text that it contains, and its number of lines, if these are to be checked."""

    begin: str = ""
    end: str = ""
    within: str = ""
    lines: int | None = None

    def of(self, output: str) -> "Outline":
        """Returns the same properties of an output."""
        return Outline(
            begin=output[:len(self.begin)],
            end=output[max(len(output) - len(self.end), 0):],
            within=self.within if self.within in output else "",
            lines=None if self.lines is None else output.count("\n"))


@dataclass(frozen=True)
class Case:
    """A run, with its expected status, its whole output or an outline of it, and the seconds of processor time that it
    may take."""

    name: str
    words: tuple[str, ...]
    text: str | bytes
    status: int
    expected: str | Outline
    seconds: int = SECONDS

    def check(self, tally: Tally) -> None:
        """Makes the run."""
        before = processor_seconds()
        status, output = pgshard(*self.words, text=self.text, seconds=SECONDS)
        if processor_seconds() - before > self.seconds:
            status, output = None, f"over {self.seconds} seconds of a processor\n"
        if isinstance(self.expected, Outline):
            found = status, self.expected.of(output)
            tally.check(f"{self.name}, which wrote {output!r}", found, (self.status, self.expected))
        else:
            tally.check(self.name, ended(status, output), ended(self.status, self.expected))


@dataclass(frozen=True)
class Made:
    """A catalog for whose tables `make` has to find certificates that `check` then accepts."""

    name: str
    catalog: str

    def check(self, tally: Tally) -> None:
        """Makes both runs."""
        status, output = pgshard("make", text=self.catalog, seconds=SECONDS)
        if status != 0:
            tally.check(f"{self.name}, which wrote {output!r}", status, 0)
            return
        found = pgshard("check", text=two_parts(self.catalog, output), seconds=SECONDS)
        tally.check(self.name, ended(*found), ended(0, ACCEPTED))


@dataclass(frozen=True)
class Sized:
    """A catalog of one table whose certificate has at least one number of nodes, and fewer than another."""

    name: str
    catalog: str
    fewest: int
    end: int

    def check(self, tally: Tally) -> None:
        """Makes the run."""
        status, output = pgshard("make", text=self.catalog, seconds=SECONDS)
        nodes = sum(word in ("s", "o", "e", "n") for word in output.split())
        found = status, self.fewest <= nodes < self.end
        tally.check(f"{self.name}, of which there are {nodes}", found, (0, True))


def processor_seconds() -> float:
    """Returns the processor time that programs have used that have ended."""
    used = resource.getrusage(resource.RUSAGE_CHILDREN)
    return used.ru_utime + used.ru_stime


def ended(status: int | None, output: str) -> str:
    """Returns an output with the status as its last line."""
    return f"{output}status {status}\n"


def two_parts(catalog: str, lines: str) -> str:
    """Returns an input of two parts. The first is empty, or ends with a newline."""
    return f"{catalog}%%\n{lines}"
