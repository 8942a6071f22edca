"""Names, rows and filters at the limits of what is read."""

from collections.abc import Iterator

from .table import NEW, Call

TEXT = 65_535

COLUMNS = "catalog.read CREATE TABLE t (id integer PRIMARY KEY, region text, b boolean, big bigint, \"like\" text);"


def rows() -> Iterator[Call]:
    """Checks rows as they are printed. The last one has 16 MB."""
    mixed = "7, NULL, FALSE, '', -9223372036854775807"
    quotes = "'" + TEXT * "''" + "'"
    longest = "'" + TEXT * "a" + "'"
    for values, times in [(mixed, 20), (mixed, 400), (quotes, 2), (longest, 257)]:
        row = f"({', '.join(times * [values])})"
        yield Call(f"row.again {row}", row)


def copies() -> Iterator[Call]:
    """Checks copies of rows: 1,600 numbers, and 100 texts of some lengths; and of a filter with such a text."""
    numbers = range(1_600)
    yield Call("row.copy " + " ".join(map(str, numbers)), f"({', '.join(map(str, numbers))})")
    yield Call("catalog.read CREATE TABLE t (c0 text PRIMARY KEY);", "ok")
    for length in [0, 1, 100, TEXT]:
        text = length * "a"
        row = f"({', '.join(100 * [repr(text)])})"
        yield Call(f"row.copy {row}", row)
        yield Call(f"filter.read c0 = '{text}');", "ok")
        yield Call(f"filter.eval {row}", "True")


def columns() -> Iterator[Call]:
    """Checks 100 columns with the longest names, and all of them as the key, in reverse order."""
    names = [f"{60 * 'c'}{number}" for number in range(100, 200)]
    declared = ", ".join(f"{name} text NOT NULL" for name in names)
    shown = " ".join(f"{name} Text!" for name in names)
    key = " ".join(map(str, reversed(range(100))))
    yield Call(f"text.elements {declared}, PRIMARY KEY ({', '.join(reversed(names))}))", f"{shown} key {key}")


def filters() -> Iterator[str]:
    """Yields filters that are true for the row (7, a text of 65,535 bytes, TRUE)."""
    for before, after in [("NOT ", ""), ("(", ")"), ("(", " IS NOT FALSE)")]:
        yield f"{64 * before}b{64 * after}"
    yield f"id IN ({', '.join(100 * ['7'])})"
    numbers = ", ".join(f"-{number}" for number in range(9, 108))
    yield f"id NOT IN (-8, {numbers}) AND id IN (8, 7, 6)"
    longest = TEXT * "a"
    yield f"region IN ({99 * f'{TEXT * chr(98)!r}, '}'{longest}')"
    yield 2_000 * "id = 1 OR " + "id = 7"
    yield 2_000 * "id <> 1 AND " + "id <> 1"
    yield "id % 9223372036854775807 = 7"
    yield 2 * f"region = 'b{longest[1:]}' OR " + f"region = '{longest}'"


def true_filters() -> Iterator[Call]:
    """Checks the values of the filters."""
    yield Call(COLUMNS, "ok")
    for text in filters():
        yield Call(f"filter.read {text});", "ok")
        yield Call(f"filter.eval (7, '{TEXT * 'a'}', TRUE)", "True")


def parts() -> Iterator[Call]:
    """Copies large filters and lists their parts: 64 remainders, and 524,288 atoms under 524,287 ANDs."""
    yield Call(COLUMNS, "ok")
    remainders = " OR ".join(f"id % {divisor} = 0" for divisor in range(1, 65))
    yield Call(f"filter.read {remainders});", "ok")
    yield Call("filter.copy", "ok")
    yield Call("filter.terms", f"[{', '.join(f'Mod(0, {divisor})' for divisor in range(1, 65))}]")
    yield Call("filter.columns", "[0]")
    text = "b IS NULL"
    for _ in range(19):
        text = f"({text} AND {text})"
    yield Call(f"filter.read {text});", "ok")
    yield Call("filter.eval", "True")
    yield Call("filter.copy", "ok")
    yield Call("filter.terms", "[Col(2)]")
    yield Call("filter.columns", "[2]")
    yield Call("filter.atoms", "[IsNull(2)]")


def calls() -> Iterator[Call]:
    """The calls of this topic."""
    yield from rows()
    yield from columns()
    for part in [copies, true_filters, parts]:
        yield NEW
        yield from part()
