"""`publish` with clients that throw away what they read, beside as many of PostgreSQL 15's walsenders with the same
filters. The clients are connected before the rows come, and each row is of one of them."""

import contextlib
import os
import socket
import subprocess
import threading
import time

import postgres
import serving
import simulating
import streaming
from measuring import print_table, processor_time, shown
from serving import Taken
from workloads import Load

CONNECTIONS = (1, 8, 32)
# How many rows there are, by how many are in a commit.
ROWS = {1_000: 200_000, 1: 60_000}
# How often each run is made, at most: one of the server takes seconds.
RUNS = 3
HEADS = [
    "Rows a commit",
    "Connections",
    "publish, µs a row",
    "for the clients, µs a row",
    "publish, thousand rows/s",
    "walsenders, µs a row",
    "walsenders, thousand rows/s",
    "load average",
]


# ---- pgshard


@contextlib.contextmanager
def publishing(setup, head):
    """A run of `publish` that listens: the process, and its port."""
    words = [setup.program, "publish", "--port", "0"]
    with subprocess.Popen(
        words, stdin=subprocess.PIPE, stdout=subprocess.PIPE, stderr=subprocess.DEVNULL, text=True
    ) as process:
        try:
            process.stdin.write(head)
            process.stdin.flush()
            yield process, int(process.stdout.readline().split()[1])
        finally:
            process.kill()


def say(process, lines):
    process.stdin.write("".join(lines))
    process.stdin.flush()


def answered(process, count):
    """Reads the answers of this many commits."""
    for number in range(1, count + 1):
        if process.stdout.readline() != f"commit {number}\n":
            raise RuntimeError(f"publish refuses commit {number}")


def published(setup, head, lines, count):
    """What it takes to read and make all commits, and to send each to its client, of this many."""
    with contextlib.ExitStack() as open_now:
        process, port = open_now.enter_context(publishing(setup, head))
        clients = [open_now.enter_context(socket.create_connection(("127.0.0.1", port))) for _ in range(count)]
        for at, it in enumerate(clients):
            it.sendall(serving.start_frame(at))
            if it.recv(1) != b"W":
                raise RuntimeError("publish starts no stream")
        before, began = processor_time(process.pid), time.perf_counter()
        writer = threading.Thread(target=say, args=(process, lines))
        reader = threading.Thread(target=answered, args=(process, len(lines)))
        writer.start()
        reader.start()
        serving.read_all(clients)
        writer.join()
        reader.join()
        return Taken(processor_time(process.pid) - before, time.perf_counter() - began)


# ---- the server


def walsenders(place, connection, load):
    """The time of the server's processes that send the same rows as they are committed."""
    streaming.prepare(connection, load)
    connection.ask("INSERT INTO t VALUES (-1, 'first');")
    with streaming.receivers(place, load.slots):
        before, began = streaming.sent(connection, load.slots), time.perf_counter()
        connection.ask(load.change_loop(0, load.rows))
        used = streaming.sent(connection, load.slots) - before
        seconds = time.perf_counter() - began
    streaming.gone(connection)
    streaming.clear(connection, load)
    return Taken(used, seconds)


# ---- both


def least(setup, measured, *given):
    """Of some runs the one that used least."""
    return min((measured(*given) for _ in range(min(setup.runs, RUNS))), key=lambda it: it.used)


def row(setup, server, load):
    catalog = load.catalog()
    head = f"{catalog}%%\n{simulating.certificates(setup.program, catalog)}%%\n"
    lines = list(serving.script(load))
    alone = least(setup, published, setup, head, lines, 0)
    taken = least(setup, published, setup, head, lines, load.slots)
    cells = [shown(taken.used / load.rows), shown((taken.used - alone.used) / load.rows)]
    cells.append(shown(load.rows / taken.seconds / 1_000))
    if server is not None:
        sent = least(setup, walsenders, *server, load)
        cells += [shown(sent.used / load.rows), shown(load.rows / sent.seconds / 1_000)]
    else:
        cells += ["", ""]
    return [f"{load.in_a_commit:,}", load.slots, *cells, f"{os.getloadavg()[0]:.1f}"]


def measure(setup, folder):
    loads = [Load(in_a_commit=size, slots=count, rows=rows) for size, rows in ROWS.items() for count in CONNECTIONS]
    with streaming.started() if postgres.folder_of_programs() else contextlib.nullcontext() as server:
        print_table(HEADS, (row(setup, server, load) for load in loads))
