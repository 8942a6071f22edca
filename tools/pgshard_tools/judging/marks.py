"""Prints the position of a fault or a table in a file to a terminal, as `file:line:column: sentence`, which editors and
terminals can open."""

import sys
from collections.abc import Sequence

from pgshard_tools.judging import outputs, report, verdicts
from pgshard_tools.judging.kinds import KINDS
from pgshard_tools.judging.program import Unreadable
from pgshard_tools.judging.verdicts import Verdict
from pgshard_tools.pointing.catalogs import made_in
from pgshard_tools.pointing.source import Source


def mark_fault(path: str, catalog: str, fault: Unreadable) -> None:
    """Marks the fault of a catalog that cannot be read."""
    if fault.part == "catalog":
        source = source_of(path, catalog)
        mark(f"{source.at(fault.place)}: {KINDS.get(fault.kind, fault.kind)}: {source.there(fault.place)}")


def mark_tables(path: str, catalog: str, found: Sequence[Verdict]) -> None:
    """Marks the tables that are not sound, each where it is created."""
    source = source_of(path, catalog)
    places = {table.name: place for place, table in made_in(catalog)[0]}
    for verdict in found:
        if verdict.answer != verdicts.SOUND:
            place = len(catalog[:places[verdict.table]].encode("utf-8", "surrogateescape"))
            mark(f"{source.at(place)}: {report.lines_of(verdict)[0]}")


def source_of(path: str, catalog: str) -> Source:
    """Returns the file, for positions in it."""
    return Source(path, catalog.encode("utf-8", "surrogateescape"))


def mark(line: str) -> None:
    """Prints a line, but only if standard error is a terminal. The judgement itself is on standard output."""
    if sys.stderr is not None and sys.stderr.isatty():
        outputs.tell(line)
