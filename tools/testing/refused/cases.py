"""The arguments and inputs of the runs, and the answers that are allowed if memory is refused."""

import pathlib
from collections.abc import Iterator
from dataclasses import dataclass

from model.catalogs import Catalog
from model.worlds import Step, World
from programs import pgshard
from random_cases.case import parts
from runs.case import two_parts
from runs.catalogs import halves
from runs.checks import HIGH, LOW, tree_of

from .running import NO_MEMORY, OUT_OF_MEMORY, SECONDS, Answer
from .scripts import CATALOG, STEPS, catalog_text, script_input
from .worlds import Place, follow

EXAMPLES = pathlib.Path(__file__).resolve().parent.parent.parent.parent / "examples"


@dataclass(frozen=True)
class Lines:
    """A run whose lines show all that it does."""

    name: str
    words: tuple[str, ...]
    text: bytes

    def fault(self, plain: Answer, found: Answer) -> str | None:
        """Returns what is wrong with a run that was refused memory. It has to print all that a plain run prints, or a
        proper prefix of those lines followed by the message that memory ran out."""
        if (found.status, found.output) == (plain.status, plain.output):
            return None
        first = found.output.removesuffix(OUT_OF_MEMORY)
        if found.status != NO_MEMORY or first == found.output:
            return f"status {found.status}, {found.output!r}"
        is_whole = not first or first.endswith("\n")
        if is_whole and plain.output.startswith(first) and first != plain.output:
            return None
        return f"other lines before the last: {first!r}"


@dataclass(frozen=True)
class Script:
    """A run of `simulate`, whose steps may be refused."""

    name: str
    words: tuple[str, ...]
    text: bytes
    catalog: Catalog
    steps: list[Step]

    def fault(self, plain: Answer, found: Answer) -> str | None:
        """Returns what is wrong with a run that was refused memory. Each step has to print the lines of a world in
        which memory was refused, or the output has to end after some steps with the message that memory ran out."""
        lines = found.output.split("\n")[:-1]
        ended = found.status == NO_MEMORY
        if ended and lines[-1:] != [OUT_OF_MEMORY.strip()] or found.status not in (0, NO_MEMORY):
            return f"status {found.status}, {found.output[-200:]!r}"
        if ended:
            lines.pop()
        places = [Place(World(self.catalog))]
        for number, step in enumerate(self.steps):
            if ended and self.is_end(places, lines, found):
                return None
            at = max(place.line for place in places)
            places = follow(places, step, lines)
            if not places:
                return f"step {number + 1}, {step!r}, has other lines: {lines[at:at + 12]!r}"
        return None if not ended and self.is_end(places, lines, found) else "another number of lines"

    def is_end(self, places: list[Place], lines: list[str], found: Answer) -> bool:
        """Returns whether all lines are those of the steps so far, with no more refused steps than requests that the
        library refused."""
        most = found.refused - (found.status == NO_MEMORY)
        return any(place.line == len(lines) and place.refused <= most for place in places)


Case = Lines | Script


def example(name: str) -> bytes:
    """Returns an example's text."""
    return (EXAMPLES / name).read_bytes()


def with_certificates(catalog: str) -> bytes:
    """Returns an input of `check`."""
    _, certificates = pgshard("make", text=catalog, seconds=SECONDS)
    return parts(catalog, certificates)


def cases() -> Iterator[Case]:
    """Yields all runs except those of `serve`."""
    shop = example("shop.sql")
    yield Lines("check of a shop", ("check",), with_certificates(shop.decode()))
    yield Lines("check of three tables", ("check",), with_certificates(catalog_text()))
    yield Lines("check of a sharding that is refused", ("check",), shop + b"%%\no 0\no 1\n")
    nodes = two_parts(halves(LOW, HIGH), tree_of(8)).encode()
    yield Lines("check of a certificate of 9,841 nodes", ("check",), nodes)
    yield Lines("check of a bad certificate", ("check",), shop + b"%%\ns 0 o\n")
    yield Lines("check of a bad catalog", ("check",), b"CREATE TABLE t (id integer PRIMARY KEY);\nDROP;%%\n")
    yield Lines("check of a shop that is shown", ("check", "--show"), with_certificates(shop.decode()))
    yield Lines("show of a shop", ("show",), shop)
    yield Lines("show of three tables", ("show",), catalog_text().encode())
    yield Lines("make of a shop", ("make",), shop)
    yield Lines("make of three tables", ("make",), catalog_text().encode())
    yield Lines("make of a row that is lost", ("make",), example("lossy.sql"))
    yield Lines("eval", ("eval", "orders"), example("orders.txt"))
    yield Lines("eval of Insert messages", ("eval", "t", "--insert"), example("regions.txt"))
    yield Lines("eval of Insert messages of bad rows", ("eval", "orders", "--insert"), example("orders.txt"))
    yield Lines("eval of an unknown table", ("eval", "nope"), example("orders.txt"))
    yield Lines("the help", ("--help",), b"")
    yield Lines("a word that is no subcommand", ("nope",), b"")
    yield Script("simulate", ("simulate",), script_input(STEPS), CATALOG, STEPS)
    yield Lines("simulate of a refused sharding", ("simulate",), shop + b"%%\no 0\no 1\n%%\nVIEW;\n")
