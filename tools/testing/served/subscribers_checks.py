"""Tests PostgreSQL subscribers of two shards, which get their rows from `pgshard serve` through tools/front.

The expected rows come from a third database, in which the script's commits are made in SQL.
"""

import re
import tempfile
import time

from programs import without_subscriptions
from server import Server
from tally import Tally

from . import messages
from .cutter import Cutter, cutting
from .program import SECONDS, fronting, serving, use_up
from .publisher import Command, Delete, Insert, Truncate, Update, literal, row_text
from .shop import FILTERS, SHOP, TOKYO

# More connections than the subscribers and a lost connection need, since a subscriber may retry before its slot is
# free.
CONNECTIONS = 30

# The transaction of tokyo in the middle of which the connection ends.
CUT = 6

# The versions of PostgreSQL that clients are told.
VERSIONS = ["15.18", "13.18"]

# Replaces the five seconds that a server waits before it reconnects.
SETTINGS = ["ALTER SYSTEM SET wal_retrieve_retry_interval = '200ms';", "SELECT pg_reload_conf();"]


def check_versions(tally: Tally, server: Server) -> None:
    """Tests both subscribers with a publisher of each version."""
    for version in VERSIONS:
        check_subscribers(tally, server, version)


def check_subscribers(tally: Tally, server: Server, version: str) -> None:
    """Tests both subscribers, with clients that are told this version of the publisher."""
    name = f"subscribers of a publisher {version}"
    for setting in SETTINGS:
        server.psql("postgres", setting)
    input_text = SHOP.input()
    made = databases(server, version)
    with tempfile.NamedTemporaryFile("w", suffix=".txt") as file:
        file.write(input_text)
        file.flush()
        with (
            serving(input_text, "--connections", str(CONNECTIONS)) as (program, port),
            cutting(port, TOKYO.slot, cut_at()) as cutter,
            fronting(cutter.port, "--catalog", file.name, "--server-version", version) as (front, front_port),
        ):
            subscribe(server, made, front_port)
            end = messages.written(SHOP.publisher().end())
            tally.check(f"{name}: how far they come", reached(server, made, end), [end, end])
            check_rows(tally, server, name, made)
            tally.check(f"{name}: what tokyo asks for when it is back", asked_again(cutter), True)
            unsubscribe(server, made)
            use_up(program, port)
            ended = f"closed {len(SHOP.commits)} {CONNECTIONS}\n"
            tally.check(f"{name}: the end of serve", program.end(), (0, [ended]))
            front.process.terminate()
            tally.check(f"{name}: the end of front", front.end(), (0, []))


def cut_at() -> int:
    """Returns the number of bytes before the middle of a transaction of tokyo."""
    transactions = SHOP.publisher().transactions(TOKYO)
    whole = sum(map(length, transactions[:CUT - 1]))
    return len(messages.COPY_BOTH_RESPONSE) + whole + length(transactions[CUT - 1]) // 2


def length(transaction: list[tuple[int, bytes]]) -> int:
    return sum(len(messages.xlog_data(*it)) for it in transaction)


def databases(server: Server, version: str) -> dict[str, str]:
    """Returns a database for each subscriber, by slot, and one of the publisher with all rows, under the name
    `publisher`."""
    made = {name: f"{name}_{version.partition('.')[0]}" for name in ("london", "tokyo", "publisher")}
    for database in made.values():
        server.create(database, without_subscriptions(SHOP.catalog))
    server.psql(made["publisher"], "\n".join(map(transaction_text, SHOP.commits)))
    return made


def transaction_text(commands: list[Command]) -> str:
    """Returns a commit's commands in SQL."""
    return "BEGIN;\n" + "".join(f"{sql_text(command)};\n" for command in commands) + "COMMIT;"


def sql_text(command: Command) -> str:
    match command:
        case Insert(table, row):
            return f"INSERT INTO {table} VALUES {row_text(row)}"
        case Update(table, key, row):
            columns = ", ".join(name for name, _ in columns_of(table))
            return f"UPDATE {table} SET ({columns}) = ROW{row_text(row)} WHERE {condition(table, key)}"
        case Delete(table, key):
            return f"DELETE FROM {table} WHERE {condition(table, key)}"
        case Truncate(tables):
            return f"TRUNCATE {', '.join(tables)}"


def columns_of(table: str) -> tuple[tuple[str, str], ...]:
    return next(it.columns for it in SHOP.tables if it.name == table)


def condition(table: str, key: tuple) -> str:
    numbers = next(it.key for it in SHOP.tables if it.name == table)
    return " AND ".join(f"{columns_of(table)[at][0]} = {literal(value)}" for at, value in zip(numbers, key))


def subscribe(server: Server, made: dict[str, str], port: int) -> None:
    for subscriber in SHOP.subscribers:
        server.psql(made[subscriber.slot], f"""
            CREATE SUBSCRIPTION {made[subscriber.slot]}
            CONNECTION 'host=127.0.0.1 port={port} user=postgres dbname=shop'
            PUBLICATION {', '.join(subscriber.publications)}
            WITH (slot_name = {subscriber.slot}, create_slot = false, copy_data = false);
        """)


def unsubscribe(server: Server, made: dict[str, str]) -> None:
    for subscriber in SHOP.subscribers:
        server.psql(made[subscriber.slot], f"""
            SET client_min_messages = error;
            DROP SUBSCRIPTION {made[subscriber.slot]};
        """)


def reached(server: Server, made: dict[str, str], end: str) -> list[str]:
    """Returns the positions that the subscribers reach in time."""
    until = time.monotonic() + SECONDS
    while True:
        found = [applied(server, made[subscriber.slot]) for subscriber in SHOP.subscribers]
        if all(position == end for position in found) or time.monotonic() > until:
            return found
        time.sleep(0.05)


def applied(server: Server, subscription: str) -> str:
    """Returns the end of the last transaction that a subscriber has applied."""
    return server.psql(subscription, f"""
        SELECT o.remote_lsn FROM pg_replication_origin_status o
        JOIN pg_subscription s ON o.external_id = 'pg_' || s.oid
        WHERE s.subname = '{subscription}';
    """)


def check_rows(tally: Tally, server: Server, name: str, made: dict[str, str]) -> None:
    """Checks that each subscriber has its rows, and that together they have all rows."""
    for table in SHOP.tables:
        found = []
        for subscriber in SHOP.subscribers:
            shard = rows_of(server, made[subscriber.slot], table.name)
            expected = rows_of(server, made["publisher"], table.name, FILTERS[subscriber.slot][table.name])
            tally.check(f"{name}: {table.name} of {subscriber.slot}", shard, expected)
            found += shard
        tally.check(f"{name}: all {table.name}", sorted(found), rows_of(server, made["publisher"], table.name))


def rows_of(server: Server, database: str, table: str, condition: str = "true") -> list[str]:
    listed = server.psql(database, f"SELECT t FROM {table} t WHERE {condition};")
    return sorted(listed.splitlines())


def asked_again(cutter: Cutter) -> bool:
    """Returns whether the first start after the loss is at the end of a transaction that had arrived completely."""
    whole = SHOP.publisher().transactions(TOKYO)[:CUT - 1]
    ends = {"0/0", *(messages.written(transaction[0][0] + 64) for transaction in whole)}
    asked = [re.search(rb"LOGICAL (\S+)", start)[1].decode() for start in cutter.starts]
    return len(asked) > 1 and asked[1] in ends
