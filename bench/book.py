"""What a commit costs a book: instructions and time a row beside a plain program and SQL in a loop, and bytes a row."""

import pathlib
import tempfile
from dataclasses import replace

import counting
import limits
import postgres
import simulating
import streaming
from measuring import print_table, shown
from sending import sized
from workloads import Load

COUNTED = 10_000
ROWS_HELD = 20_000
HEADS = [
    "Change", "Identity", "Rows per commit", "Rows before", "Tables",
    "instructions per row", "plain Rust", "µs per row", "SQL, µs per row"]
DEEDS = ("insert", "update", "delete")


def loads():
    for deed in DEEDS:
        for in_a_commit in (1_000, 1):
            yield Load(deed, in_a_commit=in_a_commit, before=50_000)
    for deed in DEEDS[1:]:
        yield Load(deed, "FULL", before=50_000)
    for before in (0, 300_000):
        yield Load(before=before)
    yield Load(in_a_commit=1, before=50_000, tables=64)


def counted(setup, load):
    """Instructions a row: of `simulate`, and of the plain program."""
    load = replace(load, rows=COUNTED if load.in_a_commit > 1 else COUNTED // 2)
    after, before = (simulating.instructions(setup, load, it) for it in ("committed", "refused"))
    made, committed = (limits.instructions("stream", *load.words(), it) for it in ("made", "committed"))
    return counting.difference(after, before, load.rows), counting.difference(committed, made, load.rows)


def timed(setup, load):
    after, before = (simulating.times(setup, load, it)["changes"] for it in ("committed", "refused"))
    return (after - before) / load.rows


def row(setup, connection, load):
    pgshard, plain = counted(setup, load)
    load = sized(load, 100_000 if load.in_a_commit > 1 else 40_000)
    taken = timed(setup, load)
    beside = streaming.least(setup, streaming.changed_by_sql, connection, load) if connection else [None]
    named = [load.deed, load.identity, f"{load.in_a_commit:,}", f"{load.there:,}", load.tables]
    return [*named, *map(shown, (pgshard, plain, taken, *beside))]


# ---- bytes


def held(setup, load):
    """The bytes of the heap after the script, for each of its rows."""
    idle = ["TAKE 99;\n"] * 70_000
    with tempfile.TemporaryDirectory(prefix="pgshard_bench_") as folder:
        path = pathlib.Path(folder) / "script"
        sizes = []
        for order in ("committed", "refused"):
            simulating.write_input(setup, load, [load.prefix(), load.changes(), idle], path)
            sizes.append(counting.heap_bytes(simulating.words(setup, load, order), path))
    return counting.difference(*sizes, load.rows)


def held_by_plain(load):
    """The bytes of the heap of the plain program, for each of its rows."""
    program = limits.built("stream")
    if program is None:
        return None
    sizes = [counting.heap_bytes([program, "held", *load.words(), it]) for it in ("committed", "made")]
    return counting.difference(*sizes, load.rows)


def bytes_row(setup, connection):
    load = Load(rows=ROWS_HELD)
    of_table, of_log = streaming.stored_bytes(connection, load) if connection else (None, None)
    yield [f"{load.rows:,}", *map(shown, (held(setup, load), held_by_plain(load), of_table, of_log))]


def measure_with(setup, folder, connection):
    print_table(HEADS, (row(setup, connection, load) for load in loads()))
    if connection:
        (copied,) = streaming.least(setup, streaming.copied, connection, Load(rows=100_000), folder / "copied")
        print(f"COPY: {shown(copied)} µs per row\n")
    heads = ["Rows inserted", "bytes a row, table and log", "plain Rust", "table of PostgreSQL", "its WAL"]
    print_table(heads, bytes_row(setup, connection))


def measure(setup, folder):
    if not postgres.folder_of_programs():
        print("PostgreSQL 15 is not installed.\n")
        return measure_with(setup, folder, None)
    with streaming.started() as (place, connection):
        measure_with(setup, place, connection)
