"""Random tables with constraints, publications and subscribers."""

import random
from dataclasses import dataclass, field

from . import kinds_numbers, kinds_others, kinds_texts, kinds_times
from .conditions import Column, Conditions, Takes, family
from .kinds import Kind
from .plans import filters_of

KINDS = [*kinds_numbers.KINDS, *kinds_texts.KINDS, *kinds_times.KINDS, *kinds_others.KINDS]
UNFILTERED = kinds_others.UNFILTERED
# Types and collations that are created in each database.
OWN_TYPES = tuple(it.needs for it in UNFILTERED)
SUBSCRIBERS = 5
OFTEN = {
    "int4": 5, "int8": 4, "int2": 3, "text": 4, "varchar": 2, "varchar3": 2, "char3": 3, "numeric": 3, "cents": 3,
    "bool": 3, "date": 3, "timestamp": 3, "timestamptz": 2, "uuid": 2, "float8": 2, "int4range": 2, "int4array": 3,
    "textarray": 2, "jsonb": 2}
OPERATIONS = ("insert", "insert, update", "insert, update, delete", "update, delete", "insert, delete, truncate")
# This column identifies rows; no filter names it.
NUMBER = "row_number"


@dataclass
class Publication:
    """A publication, how it is created, and the number of its subscriber, or None."""

    name: str
    statement: str
    taker: int | None
    filter: str | None = None


@dataclass
class Design:
    """A table, or a tree of partitions, with its publications."""

    name: str
    columns: list[Column]
    setup: list[str]
    publications: list[Publication] = field(default_factory=list)
    # The tables into which rows are inserted, if not the table itself.
    targets: list[str] = field(default_factory=list)
    # Rows that are written by hand, as statements with {number}.
    rows: list[str] = field(default_factory=list)

    @property
    def table(self) -> str:
        """Returns the table, or the root of the tree."""
        return f"{self.name}.rows"

    def filters(self) -> list[str]:
        """Returns all filters without duplicates."""
        return list(dict.fromkeys(it.filter for it in self.publications if it.filter is not None))

    def statements(self) -> list[str]:
        """Returns the statements that create the design."""
        return [f"CREATE SCHEMA {self.name}", *self.setup, *(it.statement for it in self.publications)]


class Designs:
    """Generates random designs."""

    def __init__(self, chance: random.Random, takes: Takes, kinds: list[Kind]) -> None:
        self.chance = chance
        self.kinds = kinds
        self.conditions = Conditions(chance, takes)

    def columns(self) -> list[Column]:
        """Returns one to three columns; several are often of one family."""
        first = self.kind(self.kinds)
        found = [first]
        for _ in range(self.chance.choice((0, 0, 1, 1, 2))):
            alike = [it for it in self.kinds if family(it) == family(first)]
            found.append(self.kind(alike if self.chance.random() < 0.6 else self.kinds))
        names = ["x1", "x2", '"Größe x3"']
        return [Column(name, kind, self.chance.random() < 0.4) for name, kind in zip(names, found)]

    def kind(self, among: list[Kind]) -> Kind:
        """Returns a random kind; those by which people usually divide tables are more likely."""
        return self.chance.choices(among, [OFTEN.get(it.name, 1) for it in among])[0]

    def unfiltered(self) -> list[Column]:
        """Sometimes returns a column that filters cannot name."""
        if self.chance.random() < 0.9:
            return []
        return [Column("x4", self.chance.choice(UNFILTERED), self.chance.random() < 0.3)]

    def checks(self, columns: list[Column]) -> list[str]:
        """Returns conditions that each row satisfies."""
        wanted = self.chance.choice((0, 0, 0, 1, 1, 2))
        return [self.check(columns) for _ in range(wanted)]

    def check(self, columns: list[Column]) -> str:
        """Returns a condition that many rows satisfy."""
        column, kind = self.chance.choice(columns), self.chance.random()
        if column.kind.is_ordered and kind < 0.5:
            sign = self.chance.choice((">=", "<=", ">", "<", "<>"))
            return f"{column.name} {sign} {self.conditions.constant(column)}"
        if kind < 0.6:
            return f"({self.conditions.condition(columns)}) IS NOT FALSE"
        return self.conditions.formula(columns, 1)

    def design(self, name: str) -> Design:
        """Returns a table with a plan."""
        columns, others = self.columns(), self.unfiltered()
        design = Design(name, [*columns, *others], [])
        listed = [declared(it) for it in design.columns]
        listed += [f"CHECK ({it})" for it in self.checks(design.columns)]
        listed.append(f"{NUMBER} bigint PRIMARY KEY")
        design.setup.append(f"CREATE TABLE {design.table} ({', '.join(listed)})")
        design.setup.extend(self.identity(design))
        filters = filters_of(self.conditions, columns)[:SUBSCRIBERS + 1]
        design.publications = self.publications(design, filters)
        return design

    def identity(self, design: Design) -> list[str]:
        """Returns the replica identity: mostly FULL, so that filters may name each column."""
        kind = self.chance.random()
        if kind < 0.85:
            return [f"ALTER TABLE {design.table} REPLICA IDENTITY FULL"]
        if kind < 0.9:
            return [f"ALTER TABLE {design.table} REPLICA IDENTITY NOTHING"]
        indexed = [it for it in design.columns if it.is_not_null and it.kind.is_ordered]
        if kind < 0.95 and indexed:
            listed = ", ".join(it.name for it in indexed)
            return [f"CREATE UNIQUE INDEX rows_identity ON {design.table} ({NUMBER}, {listed})",
                    f"ALTER TABLE {design.table} REPLICA IDENTITY USING INDEX rows_identity"]
        return []

    def publications(self, design: Design, filters: list[str]) -> list[Publication]:
        """Returns a publication for each filter, usually each with a subscriber of its own."""
        found = []
        for place, filter in enumerate(filters):
            taker: int | None = place % SUBSCRIBERS
            if self.chance.random() < 0.08:
                taker = self.chance.choice((None, 0, max(0, place - 1)))
            found.append(self.publication(design, place, filter, taker))
        if self.chance.random() < 0.08:
            found.append(self.publication(design, len(filters), self.conditions.condition(self.filtered(design)), None))
        return found

    @staticmethod
    def filtered(design: Design) -> list[Column]:
        """Returns the columns that filters may name."""
        return [it for it in design.columns if it.kind.is_filtered]

    def publication(self, design: Design, place: int, filter: str, taker: int | None) -> Publication:
        """Returns a publication, sometimes with a column list or other operations."""
        name, listed, options = f"{design.name}_p{place}", "", ""
        if self.chance.random() < 0.06:
            some = [it.name for it in design.columns if self.chance.random() < 0.7]
            listed = f" ({', '.join([NUMBER, *some])})"
        if self.chance.random() < 0.08:
            options = f" WITH (publish = '{self.chance.choice(OPERATIONS)}')"
        statement = f"CREATE PUBLICATION {name} FOR TABLE {design.table}{listed} WHERE ({filter}){options}"
        return Publication(name, statement, taker, filter)


def declared(column: Column) -> str:
    """Returns a column as in CREATE TABLE."""
    return f"{column.name} {column.kind.type}{' NOT NULL' if column.is_not_null else ''}"
