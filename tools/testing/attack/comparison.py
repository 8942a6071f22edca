"""Compares judge's answer for a table with what the slots sent of its rows."""

import re
from collections.abc import Iterator
from dataclasses import dataclass, field

import psycopg2

from .designs import NUMBER, Design
from .judgement import Verdict
from .oracle import Database

# The number of rows of a sound table.
WANTED = 300
OPERATIONS = {
    "update": f"UPDATE ONLY {{table}} SET {NUMBER} = {NUMBER}", "delete": "DELETE FROM ONLY {table}"}
# How a message names a table of which nothing more is sent.
NAMED = re.compile(r'for table "([^"]+)"')
# How the server says that a table's replica identity does not suffice.
REFUSALS = ("cannot update table", "cannot delete from table")


@dataclass
class Finding:
    """A difference, with what reproduces it."""

    kind: str
    words: str
    verdict: Verdict
    design: Design
    row: str = ""


@dataclass
class Judged:
    """A table with a verdict, its rows, and the tables that store them: itself, or its partitions."""

    name: str
    design: Design
    verdict: Verdict
    rows: list[int] = field(default_factory=list)
    leaves: list[str] = field(default_factory=list)
    # Whether it is a partitioned table. The rows of tables that inherit from another do not belong to it.
    is_partitioned: bool = False

    @property
    def source(self) -> str:
        """Returns the table, as in FROM, UPDATE and DELETE."""
        return self.name if self.is_partitioned else f"ONLY {self.name}"

    def finding(self, kind: str, words: str, row: str = "") -> Finding:
        """Returns a difference about the table."""
        return Finding(kind, words, self.verdict, self.design, row)


def row_text(database: Database, table: str, number: int) -> str:
    """Returns a row as the server prints it."""
    found = database.run(f"SELECT row_to_json(r)::text FROM {table} AS r WHERE {NUMBER} = {number}")
    return str(found[0][0]) if found else f"{NUMBER} {number}"


def differences(database: Database, table: Judged) -> Iterator[Finding]:
    """Yields everything false that judge says about a table."""
    match table.verdict.answer:
        case "sound":
            yield from of_sound(database, table)
            yield from of_operations(database, table)
            yield from of_regions(database, table)
        case "refused":
            yield from of_refused(database, table)
        case "not sound":
            yield from of_faults(database, table)


def of_sound(database: Database, table: Judged) -> Iterator[Finding]:
    """Checks that each row is sent to one subscriber, and that no slot fails because of it. One row of each kind is
    reported."""
    told = set()
    for number in table.rows:
        failed = database.heard.failed.get(number, {})
        takers = sorted(database.heard.takers.get(number, ()))
        if failed and all(is_of_another(it, table) for it in failed.values()):
            # The transaction also contains rows of other tables, and nothing of it is sent.
            continue
        if failed:
            kind, words = "the replication stops", f"{failed}"
        elif len(takers) != 1:
            kind = f"a row goes to {'several' if takers else 'nobody'}"
            words = f"it goes to {' and '.join(takers) or 'nobody'}"
        else:
            continue
        if failed and table.verdict.says_that_it_fails() or kind in told:
            continue
        told.add(kind)
        yield table.finding(f"wrong {table.verdict.answer}: {kind}", words, row_text(database, table.name, number))


def is_of_another(message: str, table: Judged) -> bool:
    """Returns whether the message of a failure names another table."""
    found = NAMED.search(message)
    return found is not None and found[1] not in (table.name, *table.leaves)


def of_operations(database: Database, table: Judged) -> Iterator[Finding]:
    """Checks that the server accepts updates and deletes."""
    for operation, statement in OPERATIONS.items():
        for leaf in table.leaves:
            refusal = database.refusal(statement.format(table=leaf))
            if refusal and refusal.startswith(REFUSALS):
                yield table.finding(f"wrong sound: {operation} is refused", f"{leaf}: {refusal}")


def of_regions(database: Database, table: Judged) -> Iterator[Finding]:
    """Checks that each row is in one region, which is that of its subscriber."""
    regions = [(rows.replace("all rows", "true"), taker) for rows, taker in table.verdict.regions]
    listed = ", ".join(f"({rows}) IS TRUE" for rows, _ in regions)
    if not regions:
        return
    try:
        failed = ", ".join(map(str, [-1, *database.heard.failed]))
        with database.as_told():
            found = database.run(
                f"SELECT {NUMBER}, ARRAY[{listed}] FROM {table.source} WHERE {NUMBER} NOT IN ({failed})")
    except psycopg2.Error as fault:
        yield table.finding("wrong --explain: the server does not compute a region", str(fault).splitlines()[0])
        return
    for number, inside in found:
        takers = database.heard.takers.get(number, set())
        told = [taker for is_in, (_, taker) in zip(inside, regions) if is_in]
        if set(told) != takers and len(takers) == 1 or len(told) != 1:
            yield table.finding(
                "wrong --explain", f"it is in regions of {told}, and goes to {sorted(takers)}",
                row_text(database, table.name, number))
            return


def of_faults(database: Database, table: Judged) -> Iterator[Finding]:
    """Checks that each row that goes to nobody or to several is in one of the listed regions, with these takers, and
    that no other row is."""
    regions = [(rows.replace("all rows", "true"), taking) for rows, taking in table.verdict.faults or ()]
    if not regions:
        return
    listed = ", ".join(f"({rows}) IS TRUE" for rows, _ in regions)
    failed = ", ".join(map(str, [-1, *database.heard.failed]))
    try:
        with database.as_told():
            found = database.run(
                f"SELECT {NUMBER}, ARRAY[{listed}] FROM {table.source} WHERE {NUMBER} NOT IN ({failed})")
    except psycopg2.Error as fault:
        if not any("a query for these regions may fail" in it for it in table.verdict.remarks):
            yield table.finding("wrong faults: the server does not compute a region", str(fault).splitlines()[0])
        return
    owned = set(table.rows)
    for number, inside in found:
        takers = sorted(database.heard.takers.get(number, ()))
        told = [sorted(taking) for is_in, (_, taking) in zip(inside, regions) if is_in]
        if number in owned and told != ([] if len(takers) == 1 else [takers]):
            words = f"it goes to {takers or 'nobody'}, and is in regions that go to {told}"
            yield table.finding("wrong faults", words, row_text(database, table.name, number))
            return


def of_refused(database: Database, table: Judged) -> Iterator[Finding]:
    """Checks that an operation is refused by the server, or is not published, as the reasons say."""
    reasons = "; ".join(table.verdict.because)
    if "replica identity" in reasons:
        refusals = [database.refusal(OPERATIONS[it].format(table=leaf)) for it in OPERATIONS for leaf in table.leaves]
        if table.leaves and not any(it and it.startswith(REFUSALS) for it in refusals):
            yield table.finding("wrong REFUSED: the server takes updates and deletes", reasons)
    if "not publish" not in reasons:
        for finding in of_sound(database, table):
            yield finding


def of_not_sound(database: Database, table: Judged, number: int, refusal: str | None) -> Iterator[Finding]:
    """Checks that the row of a table that is not sound goes where judge says. `refusal` is why the server refused the
    row."""
    may_be_refused = any("refuse" in it or "never be" in it or "OVERRIDING" in it or "domain" in it or "no value" in it
                         for it in table.verdict.remarks)
    if refusal is not None:
        if not may_be_refused:
            yield table.finding("wrong NOT SOUND: the server refuses the row", refusal)
        return
    failed = database.heard.failed.get(number, {})
    takers = database.heard.takers.get(number, set())
    if failed and not table.verdict.says_that_it_fails():
        yield table.finding("wrong NOT SOUND: the replication stops at the row", f"{failed}")
    elif not failed and takers != set(table.verdict.takers):
        yield table.finding("wrong NOT SOUND: the row goes elsewhere", f"it goes to {sorted(takers) or 'nobody'}")
