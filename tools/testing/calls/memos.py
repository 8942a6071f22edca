"""Memos at the limits of tables, rows and filters: 100 columns, 64 atoms in 32 filters, lists of 100 entries, texts of
65,535 bytes."""

from collections.abc import Iterator

from .table import Call

# The value that a row has in each of the columns c0 to c31, the one that it has in each of c68 to c99, and the values
# of the two atoms of each filter.
CASES = [
    (65_535 * "a", "7", ("true", "true")), (65_535 * "a", "1007", ("true", "true")), (65_535 * "a", "8", ("true", "true")),
    (65_535 * "a", "-7", ("true", "false")), (65_535 * "a", "-9223372036854775808", ("true", "false")),
    (65_535 * "a", "100", ("true", "false")), (65_535 * "a", "9223372036854775807", ("true", "false")),
    (65_535 * "a", "null", ("true", "null")), ("", "7", ("true", "true")), ("a", "7", ("false", "true")),
    (65_534 * "a", "7", ("false", "true")), (65_534 * "a" + "b", "7", ("false", "true")), ("b", "-7", ("false", "false")),
    ("b", "null", ("false", "null")), (None, "7", ("null", "true")), (None, "-7", ("null", "false")),
    (None, "null", ("null", "null"))]
FILTERS = 32


def catalog() -> str:
    """Returns a catalog with the filters `c0 IN ('', 'aa..') OR c68 % 1000 IN (0, 1, .., 99)` to `c31 IN .. OR c99 %
    1000 IN ..`."""
    columns = ", ".join(f"c{column} {'text' if column < 68 else 'bigint'}" for column in range(100))
    numbers = ", ".join(map(str, range(100)))
    publications = "".join(
        f"CREATE PUBLICATION p{number} FOR TABLE t WHERE (c{number} IN ('', '{65_535 * 'a'}') "
        f"OR c{number + 68} % 1000 IN ({numbers}));" for number in range(FILTERS))
    return f"CREATE TABLE t (id integer PRIMARY KEY, {columns});".replace(
        "id integer PRIMARY KEY, c0 text", "c0 text PRIMARY KEY") + publications


def row(first: str | None, last: str) -> str:
    """Returns a row of 100 columns."""
    text = "null" if first is None else f"'{first}"
    return " ".join([*(32 * [text]), *(36 * ["null"]), *(32 * [last])])


def text_of(said: tuple[str, str]) -> str:
    """Returns a text for the rows for which the atoms have these values; for some rows it is empty."""
    return "" if said == ("null", "null") else " and ".join(said)


def joined(said: tuple[str, str]) -> str:
    """Returns the value of the filter, an OR of both atoms."""
    return next(it for it in ("true", "null", "false") if it in said)


def calls() -> Iterator[Call]:
    """Checks that a stored text is found for all rows for which the atoms have the same values, and for no other row,
    which has its own text or none."""
    yield Call(f"catalog.read {catalog()}", "ok")
    yield Call("memo.new", "ok")
    for number, (first, last, said) in enumerate(CASES):
        yield Call(f"memo.locate {row(first, last)}", str(number))
        for at in (0, FILTERS - 1):
            yield Call(f"memo.answer {number} {at}", joined(said))
    for kept, (_, _, said) in enumerate(CASES):
        yield Call(f"memo.keep {kept} {4_000 * text_of(said)}", "ok")
        for number, (_, _, other) in enumerate(CASES):
            is_kept = other == said
            yield Call(f"memo.{'has' if is_kept else 'differs'} {number} {4_000 * text_of(other)}", str(is_kept).lower())
