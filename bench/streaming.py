"""Processes of a PostgreSQL 15 server that do what pgshard does with changes: a backend that makes them by SQL, the
walsenders that decode and send them to slots, and the worker that applies them for a subscription. Their cost is the
processor time of these processes alone."""

import contextlib
import subprocess
import time

import postgres
from measuring import processor_time

OPTIONS = (
    "-c wal_level=logical -c max_wal_senders=80 -c max_replication_slots=80 -c fsync=off -c autovacuum=off "
    "-c wal_retrieve_retry_interval=100ms -c max_connections=100"
)
PATIENCE = 120


def started():
    return postgres.server(OPTIONS)


def waited(found, what):
    """The first answer of a call that is not None."""
    end = time.monotonic() + PATIENCE
    while (answer := found()) is None:
        if time.monotonic() > end:
            raise RuntimeError(f"the server did not come to {what}")
        time.sleep(0.02)
    return answer


def least(setup, measured, *given):
    """The least of what some runs of a measurement give, three at most: each has a second to fill and more."""
    runs = [measured(*given) for _ in range(min(setup.runs, 3))]
    return [min(it) for it in zip(*runs)]


def prepare(connection, load):
    """The table with its publications, and a slot for each that is told about all that comes from now on."""
    connection.ask("\n".join([*load.table_lines(), *load.publication_lines()]))
    connection.ask("ALTER TABLE t ALTER COLUMN region SET STORAGE EXTERNAL;")
    for at in range(load.slots):
        connection.ask(f"SELECT pg_create_logical_replication_slot('s{at}', 'pgoutput');")


def prefix(connection, load):
    connection.ask("INSERT INTO t VALUES (-1, 'first');")
    if load.there:
        connection.ask(load.prefix_loop())
    connection.ask("CHECKPOINT;")


def clear(connection, load):
    def dropped():
        inactive = "SELECT slot_name FROM pg_replication_slots WHERE NOT active;"
        for name in connection.ask(inactive):
            connection.ask(f"SELECT pg_drop_replication_slot('{name}');")
        return None if connection.ask("SELECT 1 FROM pg_replication_slots;") else True

    waited(dropped, "the end of all slots")
    connection.ask("".join(f"DROP PUBLICATION p{at};" for at in range(load.slots)) + "DROP TABLE t;")


# ---- SQL


def changed_by_sql(connection, load):
    """µs per row of a backend that changes rows by statements that are each prepared once, in a table without WAL."""
    connection.ask("CREATE UNLOGGED TABLE t (id integer PRIMARY KEY, region text);")
    prefix(connection, load)
    backend = connection.backend()
    before = processor_time(backend)
    connection.ask(load.change_loop(0, load.rows))
    taken = processor_time(backend) - before
    connection.ask("DROP TABLE t;")
    return [taken / load.rows]


def copied(connection, load, path):
    """µs per row of a backend that reads the rows by COPY into a table without WAL."""
    path.write_text("".join(f"{load.key(at)}\t{'i' * load.text}\n" for at in range(load.rows)))
    path.chmod(0o644)
    connection.ask("CREATE UNLOGGED TABLE t (id integer PRIMARY KEY, region text);")
    backend = connection.backend()
    before = processor_time(backend)
    connection.ask(f"COPY t FROM '{path}';")
    taken = processor_time(backend) - before
    connection.ask("DROP TABLE t;")
    return [taken / load.rows]


def stored_bytes(connection, load):
    """The bytes a row of a table with its key, and of the WAL."""
    connection.ask("CREATE TABLE t (id integer PRIMARY KEY, region text);")
    start = connection.ask("SELECT pg_current_wal_lsn();")[0]
    connection.ask(load.change_loop(0, load.rows))
    of_table = int(connection.ask("SELECT pg_total_relation_size('t');")[0])
    of_log = int(connection.ask(f"SELECT pg_current_wal_lsn() - '{start}';")[0])
    connection.ask("DROP TABLE t;")
    return of_table / load.rows, of_log / load.rows


# ---- walsenders


@contextlib.contextmanager
def receivers(folder, count):
    """A client for each slot, which throws away what it is sent."""
    program = postgres.folder_of_programs() / "pg_recvlogical"
    clients = []
    for at in range(count):
        words = [program, "-h", folder, "-U", postgres.USER, "-d", "postgres", "-S", f"s{at}", "--start", "-f", "/dev/null"]
        words += ["-o", "proto_version=1", "-o", f"publication_names=p{at}", "--no-loop"]
        clients.append(subprocess.Popen([str(it) for it in words], stderr=subprocess.DEVNULL, cwd="/tmp"))
    try:
        yield
    finally:
        for it in clients:
            it.kill()
            it.wait()


def sent(connection, count):
    """Waits until all was sent, and gives the processor time of the processes that sent it."""
    end = connection.ask("SELECT pg_current_wal_lsn();")[0]

    def taken():
        lines = connection.ask(f"SELECT pid FROM pg_stat_replication WHERE sent_lsn >= '{end}';")
        return sum(processor_time(int(it)) for it in lines) if len(lines) == count else None

    return waited(taken, "the end of what it sends")


def gone(connection):
    """Waits until no slot is used."""
    waited(lambda: None if connection.ask("SELECT 1 FROM pg_replication_slots WHERE active;") else True, "idle slots")


def walsenders(folder, connection, load):
    """µs per row of all walsenders: where changes wait for them, and where they are sent as they come."""
    half = load.rows // 2
    prepare(connection, load)
    prefix(connection, load)
    with receivers(folder, load.slots):
        begun = sent(connection, load.slots)
        connection.ask(load.change_loop(0, half))
        at_once = sent(connection, load.slots) - begun
    gone(connection)
    clear_slots(connection, load)
    connection.ask("INSERT INTO t VALUES (-2, 'second');")
    with receivers(folder, load.slots):
        start = sent(connection, load.slots)
    gone(connection)
    connection.ask(load.change_loop(half, half))
    with receivers(folder, load.slots):
        backlog = sent(connection, load.slots) - start
    gone(connection)
    clear(connection, load)
    return backlog / half, at_once / half


def clear_slots(connection, load):
    """New slots, which are told about what comes from now on."""
    for at in range(load.slots):
        connection.ask(f"SELECT pg_drop_replication_slot('s{at}');")
        connection.ask(f"SELECT pg_create_logical_replication_slot('s{at}', 'pgoutput');")


# ---- a subscription


def worker(other):
    """The process that applies, once there is one."""
    def found():
        lines = other.ask("SELECT pid FROM pg_stat_subscription WHERE pid IS NOT NULL;")
        return int(lines[0]) if lines else None

    return waited(found, "a worker")


def applied(connection, other):
    """Waits until all was applied, and gives the processor time of the worker."""
    end = connection.ask("SELECT pg_current_wal_lsn();")[0]
    condition = f"latest_end_lsn >= '{end}' AND pid IS NOT NULL"

    def taken():
        lines = other.ask(f"SELECT pid FROM pg_stat_subscription WHERE {condition};")
        return processor_time(int(lines[0])) if lines else None

    return waited(taken, "the end of what it applies")


@contextlib.contextmanager
def subscription(folder, connection, load):
    """A database with the same table, and a subscription there to the first slot: a connection to it."""
    connection.ask("CREATE DATABASE copies;")
    other = postgres.Connection(folder, "copies")
    other.ask("\n".join(load.table_lines()))
    other.ask("ALTER TABLE t ALTER COLUMN region SET STORAGE EXTERNAL;")
    other.ask(
        f"CREATE SUBSCRIPTION s0 CONNECTION 'host={folder} dbname=postgres user={postgres.USER}' PUBLICATION p0 "
        "WITH (create_slot = false, slot_name = 's0', copy_data = false);"
    )
    try:
        yield other
    finally:
        other.ask("ALTER SUBSCRIPTION s0 DISABLE;")
        other.ask("ALTER SUBSCRIPTION s0 SET (slot_name = NONE);")
        other.ask("DROP SUBSCRIPTION s0;")
        other.close()
        connection.ask("DROP DATABASE copies WITH (FORCE);")


def restarted(connection, other):
    """A new worker, which has applied one more row: what it has taken so far."""
    other.ask("ALTER SUBSCRIPTION s0 DISABLE;")
    gone(connection)
    connection.ask("INSERT INTO t VALUES (-2, 'second');")
    other.ask("ALTER SUBSCRIPTION s0 ENABLE;")
    worker(other)
    return applied(connection, other)


def apply_worker(folder, connection, load):
    """µs per row of the worker: where changes wait for it, and where it applies them as they come."""
    half = load.rows // 2
    prepare(connection, load)
    with subscription(folder, connection, load) as other:
        prefix(connection, load)
        begun = applied(connection, other)
        connection.ask(load.change_loop(0, half))
        at_once = applied(connection, other) - begun
        start = restarted(connection, other)
        other.ask("ALTER SUBSCRIPTION s0 DISABLE;")
        gone(connection)
        connection.ask(load.change_loop(half, half))
        other.ask("ALTER SUBSCRIPTION s0 ENABLE;")
        worker(other)
        backlog = applied(connection, other) - start
        rows = [it.ask("SELECT count(*) FROM t;") for it in (connection, other)]
    if rows[0] != rows[1]:
        raise RuntimeError(f"{load}: the subscription has {rows[1]} rows for {rows[0]}")
    clear(connection, load)
    return backlog / half, at_once / half
