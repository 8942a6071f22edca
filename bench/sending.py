"""What it costs to send commits to all slots, up to the bytes that wait to be written, beside a plain program and
PostgreSQL 15's walsenders, which read the log of their server and write to sockets besides."""

from dataclasses import replace

import counting
import limits
import postgres
import simulating
import streaming
from measuring import print_table, shown
from workloads import Load

SLOTS = (1, 2, 8, 32)
HEADS = [
    "Change",
    "Identity",
    "Bytes of a text",
    "Rows per commit",
    "Slots",
    "instructions per row",
    "plain Rust",
    "backlog, µs per row",
    "at once, µs per row",
    "walsender, backlog",
    "walsender, at once",
]
# Bytes of rows that a server's processes are given, but for some.
SERVED = 100_000_000
# Steps that a script of `simulate` may have, but for some.
STEPS = 85_000
# Bytes that its input may have, but for some.
BYTES = 12_000_000


def loads():
    for in_a_commit in (1_000, 1):
        for slots in SLOTS:
            yield Load(in_a_commit=in_a_commit, slots=slots)
    for deed in ("update", "delete"):
        for identity in ("DEFAULT", "FULL"):
            yield Load(deed, identity, before=50_000)
    for text in (1_000, 60_000):
        yield Load(text=text, in_a_commit=100)
    yield Load("update", "FULL", text=1_000, in_a_commit=100)


def sized(load, rows):
    """The load with this many rows, or as many as a script may have and as there are."""
    of_each = (40 + load.text) * (2 if load.deed == "update" else 1)
    steps = load.slots + 1 if load.in_a_commit == 1 else 0
    there = load.before if load.before and load.deed != "insert" else rows
    most = min(BYTES // of_each, STEPS // steps if steps else rows, rows, there)
    return replace(load, rows=most - most % max(2, load.in_a_commit))


def served(load):
    """The load as a server's processes are given it, with more rows where those are long."""
    most = SERVED // (40 + load.text) // load.in_a_commit * load.in_a_commit
    return replace(load, rows=most) if load.text >= 1_000 else load


def counted(setup, load):
    """Instructions a row, over all slots: of `simulate`, and of the plain program."""
    load = sized(load, 10_000 if load.in_a_commit > 1 else 2_000)
    after, before = (simulating.instructions(setup, load, it) for it in ("taken", "committed"))
    taken, committed = (limits.instructions("stream", *load.words(), it) for it in ("taken", "committed"))
    return counting.difference(after, before, load.rows), counting.difference(taken, committed, load.rows)


def timed(setup, load):
    """µs per row, over all slots: where the commits wait, and where each is taken as soon as it is made."""
    backlog, idle = simulating.times(setup, load, "delivered"), simulating.times(setup, load, "refused")
    at_once = simulating.time_at_once(setup, load, False) - backlog["changes"]
    return [(it - idle["takes"]) / load.rows for it in (backlog["takes"], at_once)]


def row(setup, server, load):
    pgshard, plain = counted(setup, load)
    load = sized(load, 100_000)
    backlog, at_once = timed(setup, load)
    beside = streaming.least(setup, streaming.walsenders, *server, served(load)) if server else (None, None)
    named = [load.deed, load.identity, f"{load.text:,}", f"{load.in_a_commit:,}", load.slots]
    return [*named, *map(shown, (pgshard, plain, backlog, at_once, *beside))]


def measure(setup, _):
    if not postgres.folder_of_programs():
        print("PostgreSQL 15 is not installed.\n")
        return print_table(HEADS, (row(setup, None, load) for load in loads()))
    with streaming.started() as server:
        print_table(HEADS, (row(setup, server, load) for load in loads()))
