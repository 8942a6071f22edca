"""`serve` with clients that throw away what they read, beside as many of PostgreSQL 15's walsenders with the same
filters."""

import contextlib
import selectors
import socket
import struct
import subprocess
import tempfile
import time
from dataclasses import dataclass, replace

import counting
import postgres
import simulating
import streaming
from measuring import print_table, processor_time, shown
from workloads import Load

CONNECTIONS = (1, 2, 8, 32)
# How many rows there are, by how many are in a commit.
ROWS = {1_000: 400_000, 1: 90_000}
# How many rows are counted, likewise: twice as many, and this many.
COUNTED = {1_000: 20_000, 1: 4_000}
# What the last row that each subscriber is told about has, and no row before it.
LAST = b"the last one"
HEADS = [
    "Rows per commit",
    "Connections",
    "serve, µs per row",
    "serve, µs per row and slot",
    "serve, thousand rows/s",
    "serve, instructions per row",
    "walsenders, µs per row",
    "walsenders, µs per row and slot",
    "walsenders, thousand rows/s",
]


@dataclass
class Taken:
    """The processor time of some processes, in µs, and how long they took by the clock, in seconds."""

    used: float
    seconds: float


# ---- pgshard


def script(load):
    """The rows, and at last a new text for one row of each subscriber."""
    yield from load.changes()
    keys = (at * load.all_rows // load.slots for at in range(load.slots))
    changes = ", ".join(f"UPDATE t ({key}) ({key}, '{LAST.decode()}')" for key in keys)
    yield f"COMMIT {changes};\n"


def free_port():
    with socket.create_server(("127.0.0.1", 0)) as taken:
        return taken.getsockname()[1]


def start_frame(at):
    text = f"START_REPLICATION SLOT \"s{at}\" LOGICAL 0/0 (proto_version '1', publication_names '\"p{at}\"')".encode() + b"\0"
    return b"Q" + struct.pack("!I", 4 + len(text)) + text


@contextlib.contextmanager
def serving(setup, path, connections, before=(), told=subprocess.DEVNULL):
    """A run of `serve`, from its first line on, after these words: the process, and its port."""
    port = free_port()
    words = [*before, setup.program, "serve", "--port", str(port), "--connections", str(connections)]
    with (
        open(path, "rb") as text,
        subprocess.Popen(words, stdin=text, stdout=subprocess.PIPE, stderr=told, text=True) as process,
    ):
        try:
            if process.stdout.readline() != f"listening {port}\n":
                raise RuntimeError("serve does not listen")
            yield process, port
        finally:
            process.kill()


def closed(process):
    told = process.stdout.readline()
    if not told.startswith("closed ") or process.wait() != 0:
        raise RuntimeError(f"serve ended with {told!r}")


def commits_alone(setup, path):
    """The processor time of a run whose client asks for nothing, once it does no more."""
    with serving(setup, path, 1) as (process, port), socket.create_connection(("127.0.0.1", port)) as client:
        before, now = 0, processor_time(process.pid)
        while now - before > 10_000:
            time.sleep(0.5)
            before, now = now, processor_time(process.pid)
        client.close()
        closed(process)
    return now


def read_all(clients):
    """Reads from each until its last row has come."""
    with selectors.DefaultSelector() as ready:
        for it in clients:
            ready.register(it, selectors.EVENT_READ, b"")
        while ready.get_map():
            for key, _ in ready.select():
                piece = key.fileobj.recv(1 << 20)
                if not piece:
                    raise RuntimeError("serve ended a connection")
                end = key.data[-len(LAST) :] + piece
                if LAST in end:
                    ready.unregister(key.fileobj)
                else:
                    ready.modify(key.fileobj, selectors.EVENT_READ, end)


def served(setup, path, count):
    with contextlib.ExitStack() as open_now:
        process, port = open_now.enter_context(serving(setup, path, count))
        began = time.perf_counter()
        clients = [open_now.enter_context(socket.create_connection(("127.0.0.1", port))) for _ in range(count)]
        for at, it in enumerate(clients):
            it.sendall(start_frame(at))
        read_all(clients)
        taken = Taken(processor_time(process.pid), time.perf_counter() - began)
        for it in clients:
            it.close()
        closed(process)
    return taken


def write_input(setup, path, load):
    catalog = load.catalog()
    certificates = simulating.certificates(setup.program, catalog)
    path.write_text(f"{catalog}%%\n{certificates}%%\n{''.join(script(load))}")


def instructions(setup, path, load):
    """The instructions of a run, whose clients read all."""
    write_input(setup, path, load)
    with tempfile.TemporaryFile("w+") as told:
        with contextlib.ExitStack() as open_now:
            valgrind = ["valgrind", *counting.COUNTING]
            process, port = open_now.enter_context(serving(setup, path, load.slots, valgrind, told))
            clients = [open_now.enter_context(socket.create_connection(("127.0.0.1", port))) for _ in range(load.slots)]
            for at, it in enumerate(clients):
                it.sendall(start_frame(at))
            read_all(clients)
            for it in clients:
                it.close()
            closed(process)
        told.seek(0)
        return counting.count_in(told.read())


def counted(setup, path, load):
    """Instructions a row of the whole of `serve`; None without valgrind."""
    if not counting.is_installed():
        return None
    rows = COUNTED[load.in_a_commit]
    few, many = (instructions(setup, path, replace(load, rows=it)) for it in (rows, 2 * rows))
    return (many - few) / rows


# ---- the server


def walsenders(load):
    """The time of the server's processes that send the same rows, which were committed before."""
    with streaming.started() as (place, connection):
        streaming.prepare(connection, load)
        connection.ask(load.change_loop(0, load.rows))
        began = time.perf_counter()
        with streaming.receivers(place, load.slots):
            took = streaming.sent(connection, load.slots)
            seconds = time.perf_counter() - began
    return Taken(took, seconds)


# ---- both


def cells(taken, load, alone=0.0):
    each = (taken.used - alone) / load.rows / load.slots
    return [shown(taken.used / load.rows), shown(each), shown(load.rows / taken.seconds / 1_000)]


def least(setup, measured, *given):
    """Of some runs the one that used least."""
    return min((measured(*given) for _ in range(setup.runs)), key=lambda it: it.used)


def row(setup, path, load):
    told = shown(counted(setup, path, load))
    write_input(setup, path, load)
    alone = min(commits_alone(setup, path) for _ in range(setup.runs))
    line = [f"{load.in_a_commit:,}", load.slots, *cells(least(setup, served, setup, path, load.slots), load, alone), told]
    return line + (cells(least(setup, walsenders, load), load) if postgres.folder_of_programs() else ["", "", ""])


def measure(setup, folder):
    loads = (Load(in_a_commit=size, slots=count, rows=rows) for size, rows in ROWS.items() for count in CONNECTIONS)
    print_table(HEADS, (row(setup, folder / "served", load) for load in loads))
