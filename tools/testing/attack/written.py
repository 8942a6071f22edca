"""The form of a design that is written by hand."""

from collections.abc import Sequence
from dataclasses import dataclass


@dataclass
class Written:
    """A table's columns and constraints, its filters, each with its own subscriber, and rows."""

    columns: str
    filters: Sequence[str]
    rows: Sequence[str]
    before: Sequence[str] = ()
    after: Sequence[str] = ()
    # How the table is created, if it is not a plain one.
    making: str = "CREATE TABLE {table} ({columns}, row_number bigint PRIMARY KEY)"
    # Publications other than those of the filters: the rest of the statement, and who takes them.
    others: Sequence[tuple[str, int | None]] = ()
    # What is published, if not the table itself; and how.
    published: str = "{table}"
    options: str = ""
