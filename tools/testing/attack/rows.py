"""Extreme and random rows for a table: the constants of its filters, their neighbours, type limits, and NULL."""

import itertools
import random
import re
from collections.abc import Iterator, Sequence

from .conditions import Column
from .designs import NUMBER, Design

INTEGER = re.compile(r"'?(-?\d+)'?")
DECIMAL = re.compile(r"'?(-?\d+(?:\.\d+)?)'?")
TEXTS = {"text", "text_c", "text_posix", "text_icu", "text_de", "text_root", "text_ucs", "varchar"}
FRACTIONS = {"numeric", "cents", "float8", "float4"}
INTEGERS = {"int2": 16, "int4": 32, "int8": 64}
LETTERS = "aAbBzZ éßİ%_,.\\1\n"
# If there are at most this many combinations, all are tried.
ALL_OF = 400


def neighbours(column: Column, constant: str) -> Iterator[str]:
    """Yields the neighbours of a constant."""
    name = column.kind.name
    if name in INTEGERS and (found := INTEGER.fullmatch(constant)):
        yield from (str(int(found[1]) + it) for it in (-2, -1, 1, 2))
    elif name in FRACTIONS and (found := DECIMAL.fullmatch(constant)):
        yield from (f"{float(found[1]) + it:.3f}" for it in (-1, -0.01, 0.01, 0.001, 1))
    elif name in TEXTS and constant.startswith("'"):
        yield from (f"{constant[:-1]}{it}'" for it in (" ", "a", "!", "\t"))
        yield constant.upper()
        yield constant.lower()
    elif name == "date" and constant.startswith("'") and "infinity" not in constant and "BC" not in constant:
        yield from (f"(date {constant} + {it})::text::date" for it in (-1, 1) if "5874897" not in constant)


def random_value(chance: random.Random, column: Column) -> str:
    """Returns a random value of a column's type, or one of its extreme values if no rule is known."""
    name = column.kind.name
    if name in INTEGERS:
        bits = chance.randint(1, INTEGERS[name] - 1)
        return f"'{chance.choice((-1, 1)) * chance.getrandbits(bits)}'"
    if name in FRACTIONS:
        return f"'{chance.choice((-1, 1)) * chance.randint(0, 9999) / chance.choice((1, 10, 100))}'"
    if name in TEXTS:
        word = "".join(chance.choice(LETTERS) for _ in range(chance.randint(0, 5)))
        return "E'" + word.replace("\\", "\\\\").replace("'", "''") + "'"
    match name:
        case "date":
            return f"(date '2024-01-01' + {chance.randint(-900, 900)})"
        case "timestamp" | "seconds":
            return f"(timestamp '2024-01-01' + {chance.randint(-10**6, 10**6)} * interval '1 minute')"
        case "timestamptz":
            return f"(timestamptz '2024-01-01 UTC' + {chance.randint(-10**6, 10**6)} * interval '1 minute')"
        case "uuid":
            return f"'{chance.getrandbits(128):032x}'"
        case "interval":
            return f"'{chance.randint(-40, 40)} days {chance.randint(-50, 50)}:00'"
        case "int4range":
            low = chance.randint(-5, 5)
            return f"'[{low},{low + chance.randint(0, 9)})'"
        case "int4array":
            return "'{" + ",".join(chance.choice(("NULL", "1", "2", "3", "5", "8")) for _ in range(chance.randint(0,
                4))) + "}'"
    return chance.choice(column.kind.values)


def values_of(chance: random.Random, column: Column) -> list[str]:
    """Returns the values that are tried for a column."""
    edges = [*column.kind.values, *column.constants]
    edges += [it for constant in dict.fromkeys(column.constants) for it in neighbours(column, constant)]
    if column.kind.name in INTEGERS:
        edges += [str(it) for it in range(-9, 17)] + ["30", "255", "256", "-256", "4095", "1000", "29999"]
    more = [random_value(chance, column) for _ in range(30)]
    found = list(dict.fromkeys([*edges, *more]))
    return found if column.is_not_null else ["NULL", *found]


def rows_of(chance: random.Random, design: Design, most: int, targets: Sequence[str] = ()) -> Iterator[str]:
    """Yields at most this many rows as INSERT statements, without their number, which is written as {number}."""
    if design.rows:
        yield from design.rows
        return
    listed = [values_of(chance, it) for it in design.columns]
    names = ", ".join(it.name for it in design.columns)
    size = 1
    for values in listed:
        size *= len(values)
    rows: Iterator[tuple[str, ...]]
    if size <= ALL_OF:
        rows = itertools.chain(itertools.product(*listed), random_rows(chance, listed))
    else:
        rows = itertools.chain(edge_rows(chance, listed), random_rows(chance, listed))
    for row in itertools.islice(rows, most):
        table = chance.choice(targets or design.targets or [design.table])
        yield f"INSERT INTO {table} ({NUMBER}, {names}) VALUES ({{number}}, {', '.join(row)})"


def rows_near(
    chance: random.Random, design: Design, source: str, numbers: Sequence[int], most: int,
) -> Iterator[str]:
    """Yields rows that differ in one column from a row that a table has, so that constraints that refuse most rows
    accept many."""
    for _ in range(most if numbers and design.columns else 0):
        changed = chance.choice(design.columns)
        values = [chance.choice(values_of(chance, it)) if it is changed else it.name for it in design.columns]
        names = ", ".join(it.name for it in design.columns)
        yield (f"INSERT INTO {source.removeprefix('ONLY ')} ({NUMBER}, {names}) SELECT {{number}}, {', '.join(values)} "
               f"FROM {source} WHERE {NUMBER} = {chance.choice(numbers)}")


def edge_rows(chance: random.Random, listed: list[list[str]]) -> Iterator[tuple[str, ...]]:
    """Yields each value of each column, with some value of the others."""
    for place, values in enumerate(listed):
        for value in values:
            row = [chance.choice(it) for it in listed]
            row[place] = value
            yield tuple(row)


def random_rows(chance: random.Random, listed: list[list[str]]) -> Iterator[tuple[str, ...]]:
    """Yields arbitrary rows."""
    while True:
        yield tuple(chance.choice(it) for it in listed)
