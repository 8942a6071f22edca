"""Sends random workloads to PostgreSQL subscribers through tools/front, and cuts connections on both sides of it. In
the end, each subscriber has its rows according to a third database, in which the commits are made in SQL."""

import dataclasses
import pathlib
import random
import shutil
import tempfile
import time

from programs import without_subscriptions
from random_cases.comparison import seed
from server import Server
from tally import Tally

from .feeds import Cuts, cutting_some, workload
from .program import Started, fronting, serving
from .publisher import Subscriber
from .secured_checks import PASSWORD, make_certificate
from .sharding import Sharding
from .shop import FILTERS, SHOP
from .subscribers_checks import SETTINGS, transaction_text

FEEDS = 12
# More connections than are needed for all streams that are cut, or refused because a slot is still in use.
CONNECTIONS = 1_000

# How long a subscriber may take to receive its rows, in seconds. It may notice a lost connection only after
# wal_receiver_timeout, which is a minute.
PATIENCE = 180
# The most streams that are cut on each side of the front, and the bytes before each cut.
CUTS = 4
LATEST_CUT = 6_000
# Workloads whose number is a multiple of this use TLS and a password; the relay before the front sees no start then.
SECURED = 5

MADE = {"london": "fed_london", "tokyo": "fed_tokyo", "publisher": "fed_publisher"}
TABLES = ", ".join(table.name for table in SHOP.tables)


def check_feeds(tally: Tally, server: Server) -> None:
    """Runs all workloads of a seed, with subscriptions that copy their tables and with others."""
    for setting in SETTINGS:
        server.psql("postgres", setting)
    for database in MADE.values():
        server.create(database, without_subscriptions(SHOP.catalog))
    certificates = SHOP.input().split("%%\n")[1]
    cuts = 0
    with tempfile.TemporaryDirectory() as folder:
        secured = secured_by(pathlib.Path(folder))
        for number in range(FEEDS):
            chosen = random.Random(f"{seed()} {number}")
            made = dataclasses.replace(SHOP, commits=workload(chosen))
            text = f"{SHOP.catalog}%%\n{certificates}%%\n{made.script()}"
            words = secured if number % SECURED == 0 else []
            cuts += check_feed(tally, server, f"workload {number} of seed {seed()}", made, text, chosen, words)
    print(f"  {cuts} connections cut in {FEEDS} workloads")


def secured_by(folder: pathlib.Path) -> list[str]:
    """Returns the arguments with which a front demands a password and TLS, or none if openssl is not installed."""
    if shutil.which("openssl") is None:
        return []
    make_certificate(folder)
    file = folder / "password"
    file.write_text(f"{PASSWORD}\n", encoding="ascii")
    return ["--password-file", str(file), "--certificate", str(folder / "certificate"), "--key", str(folder / "key")]


def check_feed(
        tally: Tally, server: Server, name: str, made: Sharding, text: str, chosen: random.Random, secured: list[str],
) -> int:
    """Runs a workload. Returns how many connections were cut."""
    server.psql(MADE["publisher"], "\n".join([f"TRUNCATE {TABLES};", *map(transaction_text, made.commits)]))
    behind, before = ([chosen.randrange(1, LATEST_CUT) for _ in range(chosen.randrange(CUTS + 1))] for _ in range(2))
    options = [chosen.choice(["", ", create_slot = false, copy_data = false"]) for _ in SHOP.subscribers]
    with tempfile.NamedTemporaryFile("w", suffix=".txt") as file:
        file.write(text)
        file.flush()
        with (
            serving(text, "--connections", str(CONNECTIONS)) as (_, port),
            cutting_some(port, behind) as (cuts_behind, behind_port),
            fronting(behind_port, "--catalog", file.name, *secured) as (front, front_port),
            cutting_some(front_port, before) as (cuts_before, before_port),
        ):
            for subscriber, more in zip(SHOP.subscribers, options):
                subscribe(server, subscriber, connection(before_port, bool(secured)), more)
            shards = {it.slot: rows_of(server, "publisher", FILTERS[it.slot]) for it in SHOP.subscribers}
            check_rows(tally, server, name, shards)
            for subscriber in SHOP.subscribers:
                server.told(MADE[subscriber.slot], "DROP SUBSCRIPTION s;")
            check_rows(tally, server, f"{name}, at the end", shards)
            tally.check(f"{name}: front runs", front.is_running(), True)
            tally.check(f"{name}: faults of front", faults(front), [])
            return made_by(cuts_behind, cuts_before)


def faults(front: Started) -> list[str]:
    """Returns the lines of the log that report faults of the front itself."""
    return [line for line in front.log if "fault of pgshard front" in line]


def made_by(*cuts: Cuts) -> int:
    """Returns how many cuts were made."""
    return sum(it.made for it in cuts)


def connection(port: int, is_secured: bool) -> str:
    """Returns a subscriber's connection string."""
    more = f"sslmode=require password=''{PASSWORD}''" if is_secured else "sslmode=disable"
    return f"host=127.0.0.1 port={port} user=postgres dbname=shop {more}"


def subscribe(server: Server, subscriber: Subscriber, connected: str, options: str) -> None:
    """Creates a subscription whose tables are empty."""
    server.psql(MADE[subscriber.slot], f"""
        SET client_min_messages = error;
        TRUNCATE {TABLES};
        CREATE SUBSCRIPTION s CONNECTION '{connected}'
        PUBLICATION {', '.join(subscriber.publications)} WITH (slot_name = {subscriber.slot}{options});
    """)


def check_rows(tally: Tally, server: Server, name: str, shards: dict[str, str]) -> None:
    """Checks that each subscriber has its rows in time."""
    for slot, expected in shards.items():
        until = time.monotonic() + PATIENCE
        while (found := rows_of(server, slot, {})) != expected and time.monotonic() < until:
            time.sleep(0.1)
        tally.check(f"{name}: the rows of {slot}", found, expected)


def rows_of(server: Server, database: str, filters: dict[str, str]) -> str:
    """Returns all rows of a database that pass the filters."""
    names = [table.name for table in SHOP.tables]
    listed = " UNION ALL ".join(
        f"SELECT '{name} ' || t FROM {name} t WHERE {filters.get(name, 'true')}" for name in names)
    return server.psql(MADE[database], f"{listed} ORDER BY 1;")
