"""What a server's catalog says about tables and publications, as read by psql."""

import json
import os
import subprocess
from collections.abc import Iterable, Sequence
from dataclasses import dataclass, field
from typing import Any

from pgshard_tools.judging.faults import NO_ANSWER, Fault

FOLDER = os.path.dirname(os.path.realpath(__file__))
# The versions that are judged, all by the rules of the first of them.
VERSIONS = range(15, 19)
OPERATIONS = ["insert", "update", "delete", "truncate"]

# A table, a column of a table, a publication, and a publication's entry for a table, each with the keys that
# reading.sql gives it.
Table = dict[str, Any]
Column = dict[str, Any]
Publication = dict[str, Any]
Entry = dict[str, Any]


@dataclass
class Subscriber:
    """A subscriber, which takes publications. `missing` are those that do not exist, because of which the server ends
    its stream."""

    name: str
    publications: list[str]
    remarks: list[str] = field(default_factory=list)
    missing: list[str] = field(default_factory=list)
    slot: str | None = None


def run_psql(words: Sequence[str], script: str | None = None, text: str | None = None) -> str:
    """Returns what psql prints."""
    command = ["psql", "-X", *(["-f", script] if script else []), *words]
    try:
        answer = subprocess.run(command, stdout=subprocess.PIPE, input=text, encoding="utf-8", errors="surrogateescape")
    except OSError as fault:
        raise Fault(NO_ANSWER, f"cannot run psql: {fault}") from fault
    if answer.returncode != 0:
        raise Fault(NO_ANSWER, f"psql ended with status {answer.returncode}, so nothing is judged")
    return answer.stdout


def read_database(words: Sequence[str]) -> "Database":
    """Returns what reading.sql reads from the database that psql's arguments name."""
    printed = run_psql(words, script=os.path.join(FOLDER, "reading.sql"))
    try:
        found = json.loads(printed)
    except ValueError as fault:
        raise Fault(NO_ANSWER, "psql does not answer with the catalog, so nothing is judged") from fault
    if found["version"] // 10000 not in VERSIONS:
        raise Fault(NO_ANSWER, f"the server has version {version_text(found['version'])}, and judge judges versions "
                               f"{VERSIONS[0]} to {VERSIONS[-1]}")
    return Database(found)


def version_text(number: int) -> str:
    """Returns a version in its usual form."""
    return f"{number // 10000}.{number % 10000}"


class Database:
    """The catalog of one database."""

    def __init__(self, found: dict[str, Any]) -> None:
        self.name: str = found["database"]
        self.version: int = found["version"]
        self.tables: list[Table] = found["tables"]
        self.publications: dict[str, Publication] = {it["name"]: it for it in found["publications"]}
        self.unpublished: list[str] = found["unpublished"]
        self.slots: dict[str, bool] = {it["name"]: it["active"] for it in found["slots"]}
        self.walsenders: list[dict[str, str | None]] = found["walsenders"]
        self.by_oid: dict[int, Table] = {table["oid"]: table for table in self.tables}

    @property
    def note(self) -> str | None:
        """Returns the remark that the server is later than the rules by which it is judged."""
        if self.version // 10000 == VERSIONS[0]:
            return None
        return f"the server has version {version_text(self.version)}: judged by the rules of {VERSIONS[0]}"

    def has(self, publication: Publication, oid: int) -> bool:
        """Returns whether a publication contains a table by its name or its schema."""
        table = self.by_oid.get(oid)
        is_in_schema = table is not None and table["schema"] in publication["schemas"]
        return is_in_schema or self.entry(publication, oid) is not None

    @staticmethod
    def entry(publication: Publication, oid: int) -> Entry | None:
        """Returns a publication's entry for a table that it names."""
        entries: list[Entry] = publication["entries"]
        return next((it for it in entries if it["oid"] == oid), None)

    def published_as(self, publication: Publication, table: Table) -> int | None:
        """Returns the OID of the table in whose name a publication sends the rows of a table that stores rows, or None.

        Rows of a partition are sent as those of the topmost partitioned table above it that the publication contains,
        if it publishes via the root.
        """
        ancestors = self.ancestors_in(publication, table)
        if ancestors and publication["via_root"]:
            return ancestors[-1]
        is_carried = publication["all"] or ancestors or self.has(publication, table["oid"])
        return int(table["oid"]) if is_carried else None

    def ancestors_in(self, publication: Publication, table: Table) -> list[int]:
        """Returns the partitioned tables above a partition that a publication contains, the nearest first."""
        return [oid for oid in table["ancestors"] if publication["all"] or self.has(publication, oid)]

    def filter_of(self, publication: Publication, oid: int) -> str | None:
        """Returns the filter under which a publication sends rows as those of a table, or None if it sends them all."""
        if publication["all"] or self.by_oid[oid]["schema"] in publication["schemas"]:
            return None
        entry = self.entry(publication, oid)
        return entry["filter"] if entry else None


def full_name(table: Table) -> str:
    """Returns the name of a table with its schema, both as stored."""
    return f"{table['schema']}.{table['name']}"


def names_of(table: Table, numbers: Iterable[int]) -> list[str]:
    """Returns the names of columns, given their numbers."""
    by_number = {column["number"]: column["name"] for column in table["columns"]}
    return [by_number[it] for it in numbers if it in by_number]
