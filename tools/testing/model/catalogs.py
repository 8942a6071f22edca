"""Catalogs as data.

A filter is a tuple: ("const", truth), ("not", f), ("and", f, g), ("or", f, g), ("is", truth, f), or an atom: ("null",
column), ("cmp", column, divisor, operator, literal), ("in", column, divisor, literals), ("between", column, divisor,
low, high), ("distinct", column, divisor, literal). A divisor of 0 means the column itself. The literals of a list are
in ascending order, without duplicates. A truth is True, False or None.
"""

from dataclasses import dataclass, field

Filter = tuple
Value = None | bool | int | str
Row = tuple[Value, ...]

FULL, DEFAULT, NOTHING = "FULL", "DEFAULT", "NOTHING"
OPERATIONS = ("insert", "update", "delete", "truncate")


@dataclass(frozen=True)
class Column:
    """A column of one of the five types. Key columns are NOT NULL."""

    name: str
    kind: str
    not_null: bool


@dataclass(frozen=True)
class Index:
    """A unique index over columns, which are given by their numbers."""

    name: str
    columns: tuple[int, ...]


@dataclass(frozen=True)
class Table:
    """A table. Its identity is one of three words, or the number of an index."""

    schema: str
    name: str
    columns: tuple[Column, ...]
    key: tuple[int, ...]
    indexes: tuple[Index, ...] = ()
    identity: str | int = FULL

    def full_name(self) -> str:
        """Returns the qualified name as outputs have it."""
        return f"{self.schema}.{self.name}"

    def identity_columns(self) -> tuple[int, ...]:
        """Returns the columns whose old values are logged."""
        if self.identity == FULL:
            return tuple(range(len(self.columns)))
        if self.identity == DEFAULT:
            return self.key
        return () if self.identity == NOTHING else self.indexes[self.identity].columns


@dataclass(frozen=True)
class Publication:
    """The named tables, each with its filter or None, and the schemas; or all tables."""

    name: str
    entries: tuple[tuple[int, Filter | None], ...] = ()
    schemas: tuple[str, ...] = ()
    all_tables: bool = False
    operations: frozenset[str] = frozenset(OPERATIONS)


@dataclass(frozen=True)
class Subscription:
    """The numbers of the publications."""

    name: str
    publications: tuple[int, ...]


@dataclass(frozen=True)
class Catalog:
    """Everything that a catalog's text creates."""

    tables: tuple[Table, ...] = ()
    publications: tuple[Publication, ...] = ()
    subscriptions: tuple[Subscription, ...] = ()
    schemas: tuple[str, ...] = field(default=())
