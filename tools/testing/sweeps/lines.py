"""Runs in which one dimension goes through all its values within one input."""

import string
from collections.abc import Iterator

from model.catalogs import Catalog, Column, Filter, Publication, Row, Subscription, Table
from model.passing import eval_line
from model.values import written_row
from model.worlds import Step, World
from random_cases.case import Case, parts
from random_cases.catalog_texts import CatalogText
from random_cases.scripts import ScriptText

from .case import Plain
from .dimensions import numbers

# Output lines have every length from that of a row with an empty text to over 2,100 bytes.
TEXTS = 2_101
SIZES = 50
MOST_PUBLICATIONS = 64
PRINTABLE = [chr(code) for code in range(32, 127)]


def cases() -> Iterator[Case]:
    """Yields all cases."""
    for at in range(0, TEXTS, SIZES):
        yield lengths(range(at, min(at + SIZES, TEXTS)))
    yield from names()
    yield from constants()
    yield from characters()


def text_of(catalog: Catalog) -> str:
    """Returns the plain form of a catalog's text."""
    return CatalogText(catalog, Plain(), False).text()


def lengths(sizes: range) -> Case:
    """Returns a view of rows with texts of these lengths."""
    table = Table("public", "t", (Column("id", "text", True),), (0,))
    catalog = Catalog((table,), (Publication("p", ((0, None),)),), (Subscription("s", (0,)),))
    rows: list[Row] = [(string.ascii_lowercase[size % 26] * size,) for size in sizes]
    steps: list[Step] = [("commit", [("insert", 0, row) for row in rows]), ("open", 0), ("pump", 0), ("view",)]
    world = World(catalog)
    output = "".join(f"{line}\n" for step in steps for line in world.step(step))
    text = parts(text_of(catalog), "o 0\n", ScriptText(catalog, Plain(), False).text(steps))
    return Case(("simulate",), text, 0, output)


def evaluated(catalog: Catalog, rows: list[Row], *more: str) -> Case:
    """Returns a case that evaluates the publications of the first table for rows."""
    texts = "".join(f"{written_row(row)}\n" for row in rows)
    output = "".join(f"{eval_line(catalog, 0, row, bool(more))}\n" for row in rows)
    return Case(("eval", f"public.{catalog.tables[0].name}", *more), parts(text_of(catalog), texts), 0, output)


def names() -> Iterator[Case]:
    """Yields cases with a publication, a table and a column whose names have 1 to 63 bytes; the lines have 6 bytes or
    more."""
    for size in range(1, 64):
        name = "n" * size
        table = Table("public", name, (Column(name, "integer", True),), (0,))
        yield evaluated(Catalog((table,), (Publication(name, ((0, ("cmp", 0, 0, "=", 1)),)),)), [(1,), (2,)])


def constants() -> Iterator[Case]:
    """Yields cases with each number as a constant of a filter, and each number as a value."""
    listed = numbers()
    table = Table("public", "t", (Column("id", "bigint", True),), (0,))
    for at in range(0, len(listed), MOST_PUBLICATIONS):
        filters: list[Filter] = [
            ("cmp", 0, 0, ("<", "=", ">=")[place % 3], number)
            for place, number in enumerate(listed[at:at + MOST_PUBLICATIONS])]
        publications = tuple(Publication(f"p{place}", ((0, it),)) for place, it in enumerate(filters))
        yield evaluated(Catalog((table,), publications), [(number,) for number in listed])


def characters() -> Iterator[Case]:
    """Yields cases with every printable character as a column's name, in a filter on that column, and as a text."""
    for at in range(0, len(PRINTABLE), MOST_PUBLICATIONS):
        some = PRINTABLE[at:at + MOST_PUBLICATIONS]
        table = Table("public", "t", tuple(Column(name, "text", True) for name in some), (0,))
        publications = tuple(
            Publication(f"p{place}", ((0, ("cmp", place, 0, "=", name)),)) for place, name in enumerate(some))
        catalog = Catalog((table,), publications)
        rows = [tuple(some), tuple(reversed(some)), *((name,) * len(some) for name in PRINTABLE)]
        yield evaluated(catalog, rows)
        yield evaluated(catalog, rows, "--insert")
