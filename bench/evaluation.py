"""`eval` on a million rows, beside PostgreSQL, which reads the same rows by COPY and writes what each filter says of
each,
and beside a plain program."""

import os
import re
from collections import Counter

import counting
import limits
import postgres
import rows
from measuring import print_table, shown

# Families, and how many publications they have.
KINDS = [(name, count) for name in ("ranges", "remainders", "regions") for count in (2, 8)] + [("columns", 64)]
COUNTED = 20_000
HEADS = [
    "Filters",
    "Publications",
    "eval, ms",
    "eval --insert, ms",
    "COPY in and out, ms",
    "eval by COPY in and out",
    "count alone, ms",
    "counts",
    "eval, instructions per row",
    "eval --insert, instructions per row",
    "plain Rust",
]


def carried(answer, count):
    """How many rows each publication carries, by the lines of `eval`."""
    found = Counter(re.findall(r"p(\d+)=true", answer))
    return [found[str(at)] for at in range(count)]


# ---- the server


def copied_in_and_out(connection, given, path):
    """The time in which the rows are read, and what each filter says of each is written."""
    connection.ask(f"TRUNCATE {rows.TABLE};")
    reading, _ = connection.milliseconds(f"COPY {rows.TABLE} FROM '{path}';", 1)
    says = ", ".join(f"({it})" for it in given.filters)
    writing, _ = connection.milliseconds(f"COPY (SELECT {says} FROM {rows.TABLE}) TO '/dev/null';", 1)
    return reading + writing


def database_times(connection, setup, given, path):
    """Times of COPY in and out, and of the counts alone; and the counts.

    The table has no key, so that COPY builds no index, and one process answers each query."""
    columns = given.columns.replace(" PRIMARY KEY", "")
    connection.ask(f"DROP TABLE IF EXISTS {rows.TABLE}; CREATE UNLOGGED TABLE {rows.TABLE} ({columns});")
    connection.ask("SET max_parallel_workers_per_gather = 0;")
    with connection.pinned(setup.core):
        copied = min(copied_in_and_out(connection, given, path) for _ in range(setup.runs))
        connection.ask(f"ANALYZE {rows.TABLE};")
        alone, lines = connection.milliseconds(given.counting(), setup.runs)
    return copied, alone, [int(it) for it in lines[0].split("|")]


# ---- instructions


def counted(given, path, words):
    """The instructions per row of a program, or of none."""
    if words is None:
        return None
    given.write_program_input(path, 0)
    before = counting.instructions(words, path)
    given.write_program_input(path, COUNTED)
    return counting.difference(counting.instructions(words, path), before, COUNTED)


def plain(name, count):
    """The words of the plain program, if it can be built."""
    program = limits.built("eval")
    return program and [program, name, str(count)]


def row(setup, folder, connection, name, count):
    given = rows.FAMILIES[name](count)
    text, copy_text = folder / "input", folder / "rows"
    given.write_program_input(text)
    words = [setup.program, "eval", rows.TABLE]
    taken, inserting = setup.milliseconds(words, text), setup.milliseconds([*words, "--insert"], text)
    counts, beside, told = carried(setup.answer(words, text), count), (None, None), ""
    if connection:
        given.write_copy_input(copy_text)
        os.chmod(copy_text, 0o644)
        *beside, theirs = database_times(connection, setup, given, copy_text)
        told = "the same" if counts == theirs else f"{counts} and {theirs}"
    part = taken / beside[0] if connection else None
    instructions = (counted(given, text, it) for it in (words, [*words, "--insert"], plain(name, count)))
    return [name, count, *map(shown, (taken, inserting, beside[0], part, beside[1])), told, *map(shown, instructions)]


def table(setup, folder, connection):
    print_table(HEADS, (row(setup, folder, connection, name, count) for name, count in KINDS))


def measure(setup, folder):
    if postgres.folder_of_programs() is None:
        print("PostgreSQL 15 is not installed.\n")
        return table(setup, folder, None)
    with postgres.server() as (place, connection):
        table(setup, place, connection)
