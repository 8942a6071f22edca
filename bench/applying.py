"""What it costs a subscriber to read and apply the bytes that it gets, beside a plain program and the worker of a
subscription of PostgreSQL 15, which reads them from a socket and writes a table and its log."""

import counting
import limits
import postgres
import simulating
import streaming
from measuring import print_table, shown
from sending import served, sized
from workloads import Load

HEADS = [
    "Change",
    "Identity",
    "Bytes of a text",
    "Rows per commit",
    "Rows before",
    "instructions per row",
    "plain Rust",
    "backlog, µs per row",
    "at once, µs per row",
    "apply worker, backlog",
    "apply worker, at once",
]


def loads():
    for deed in ("insert", "update", "delete"):
        for identity in ("DEFAULT", "FULL"):
            yield Load(deed, identity, before=50_000)
    for deed in ("insert", "update"):
        yield Load(deed, in_a_commit=1, before=50_000)
    for identity in ("DEFAULT", "FULL"):
        yield Load("update", identity, before=10_000)
    for text in (1_000, 60_000):
        yield Load(text=text, in_a_commit=100)
    yield Load("update", "FULL", text=1_000, in_a_commit=100)


def counted(setup, load):
    """Instructions a row: of `simulate`, and of the plain program."""
    load = sized(load, 10_000 if load.in_a_commit > 1 else 2_000)
    after, before = (simulating.instructions(setup, load, it) for it in ("delivered", "taken"))
    delivered, taken = (limits.instructions("stream", *load.words(), it) for it in ("delivered", "taken"))
    return counting.difference(after, before, load.rows), counting.difference(delivered, taken, load.rows)


def timed(setup, load):
    """µs per row: where all bytes wait, and where those of a commit come as soon as it is taken."""
    backlog, idle = simulating.times(setup, load, "delivered"), simulating.times(setup, load, "refused")
    at_once = simulating.time_at_once(setup, load, True) - simulating.time_at_once(setup, load, False)
    return (backlog["delivers"] - idle["delivers"]) / load.rows, at_once / load.rows


def row(setup, server, load):
    pgshard, plain = counted(setup, load)
    load = sized(load, 100_000 if load.in_a_commit > 1 else 25_000)
    backlog, at_once = timed(setup, load)
    beside = streaming.least(setup, streaming.apply_worker, *server, served(load)) if server else (None, None)
    named = [load.deed, load.identity, f"{load.text:,}", f"{load.in_a_commit:,}", f"{load.there:,}"]
    return [*named, *map(shown, (pgshard, plain, backlog, at_once, *beside))]


def measure(setup, _):
    if not postgres.folder_of_programs():
        print("PostgreSQL 15 is not installed.\n")
        return print_table(HEADS, (row(setup, None, load) for load in loads()))
    with streaming.started() as server:
        print_table(HEADS, (row(setup, server, load) for load in loads()))
