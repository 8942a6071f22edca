"""Tests subscriptions with default options. Their tables are copied as they are at the beginning of the log, that is,
empty, and then catch up. No row is lost, whenever the copies are made, nor after the subscription is dropped and
created again."""

import tempfile
import time

from programs import without_subscriptions
from server import Server
from tally import Tally

from .program import SECONDS, fronting, serving
from .shop import SHOP
from .subscribers_checks import SETTINGS, check_rows, transaction_text

CONNECTIONS = 60

# The number of workers that copy tables concurrently. With two workers for two subscriptions and their copies, tables
# wait for each other.
WORKERS = "ALTER SYSTEM SET max_sync_workers_per_subscription = 1;"

# The process of the subscription that has received something.
HEARS = "SELECT pid FROM pg_stat_subscription WHERE subname = 's' AND relid IS NULL AND last_msg_receipt_time IS NOT NULL;"

# What psql prints about the slots, which FEEDING.md quotes.
CREATED = 'NOTICE:  created replication slot "{slot}" on publisher\n'
DROPPED = 'NOTICE:  dropped replication slot "{slot}" on publisher\n'
EXISTS = (
    'ERROR:  could not create replication slot "{slot}": ERROR:  replication slot "{slot}" already exists\n'
    "HINT:  It is confirmed up to 0/380. Drop it to start from the beginning, or use "
    "create_slot = false to continue from there.\n")
STALE = (
    'ERROR:  could not drop replication slot "{slot}" on publisher: '
    'ERROR:  replication slot "{slot}" cannot be dropped, '
    "since it would not start from the beginning: its stream is known only from 0/380 on\n"
    "HINT:  To drop a subscription without its slot, use ALTER SUBSCRIPTION .. SET (slot_name = NONE) first. "
    "Restart pgshard serve and pgshard front together to start all slots from the beginning.\n")

MADE = {"london": "copied_london", "tokyo": "copied_tokyo", "publisher": "copied_publisher"}


def check_copies(tally: Tally, server: Server) -> None:
    """Tests both subscribers with default options, twice, and then with a front that does not know their slots."""
    for setting in [WORKERS, *SETTINGS]:
        server.psql("postgres", setting)
    for database in MADE.values():
        server.create(database, without_subscriptions(SHOP.catalog))
    server.psql(MADE["publisher"], "\n".join(map(transaction_text, SHOP.commits)))
    with tempfile.NamedTemporaryFile("w", suffix=".txt") as file:
        file.write(SHOP.input())
        file.flush()
        with serving(SHOP.input(), "--connections", str(CONNECTIONS)) as (_, port):
            for version in "15.18", "13.18":
                with fronting(port, "--catalog", file.name, "--server-version", version) as (_, front_port):
                    if version == "15.18":
                        for name in "a first subscription", "a second one":
                            check_copied(tally, server, front_port, name)
                        check_existing(tally, server, front_port)
                    else:
                        check_stale(tally, server, front_port)
    server.psql("postgres", WORKERS.replace("= 1", "= 2"))


def check_copied(tally: Tally, server: Server, port: int, name: str) -> None:
    """Checks that subscriptions get all rows, and are dropped with their slots."""
    for subscriber in SHOP.subscribers:
        made = subscribe(server, port, subscriber.slot)
        tally.check(f"{name}: {subscriber.slot} is made", made, CREATED.format(slot=subscriber.slot))
    for subscriber in SHOP.subscribers:
        tally.check(f"{name}: the tables of {subscriber.slot}", states(server, subscriber.slot), "rrr")
    check_rows(tally, server, name, MADE)
    for subscriber in SHOP.subscribers:
        dropped = server.told(MADE[subscriber.slot], "DROP SUBSCRIPTION s;")
        tally.check(f"{name}: {subscriber.slot} is dropped", dropped, DROPPED.format(slot=subscriber.slot))
        server.psql(MADE[subscriber.slot], f"TRUNCATE {', '.join(table.name for table in SHOP.tables)};")


def check_existing(tally: Tally, server: Server, port: int) -> None:
    """Checks that a slot that was not dropped cannot be created again, and that tables are copied even if the slot is
    not created."""
    slot = "london"
    subscribe(server, port, slot)
    tally.check(f"once more: the tables of {slot}", states(server, slot), "rrr")
    server.psql(MADE[slot], "ALTER SUBSCRIPTION s DISABLE; ALTER SUBSCRIPTION s SET (slot_name = NONE);")
    server.psql(MADE[slot], f"DROP SUBSCRIPTION s; TRUNCATE {', '.join(table.name for table in SHOP.tables)};")
    until = time.monotonic() + SECONDS
    while (found := subscribe(server, port, slot)) != EXISTS.format(slot=slot) and time.monotonic() < until:
        server.told(MADE[slot], "DROP SUBSCRIPTION IF EXISTS s;")
        time.sleep(0.2)
    tally.check(f"{slot} is made again", found, EXISTS.format(slot=slot))
    tally.check(f"{slot} without its slot", subscribe(server, port, slot, "WITH (create_slot = false)"), "")
    tally.check(f"the tables of {slot} without its slot", states(server, slot), "rrr")
    found = {table.name: server.psql(MADE[slot], f"SELECT count(*) FROM {table.name};") for table in SHOP.tables}
    shards = {table.name: str(len(SHOP.publisher().shard(SHOP.subscribers[0], table.name))) for table in SHOP.tables}
    tally.check(f"the rows of {slot} without its slot", found, shards)


def check_stale(tally: Tally, server: Server, port: int) -> None:
    """Checks that a restarted front, which does not know what happened before, says so, and neither copies nor drops
    anything."""
    slot = "london"
    before = server.psql(MADE[slot], HEARS)
    server.psql(MADE[slot], f"ALTER SUBSCRIPTION s CONNECTION '{connection(port)}';")
    until = time.monotonic() + SECONDS
    # A slot that no client has started can be dropped, since its next start begins afresh; so wait until it has been
    # started.
    while server.psql(MADE[slot], HEARS) in ("", before) and time.monotonic() < until:
        time.sleep(0.1)
    found = server.told(MADE[slot], "DROP SUBSCRIPTION s;")
    tally.check("a slot whose begin is not known is not dropped", found, STALE.format(slot=slot))
    server.psql(MADE[slot], "ALTER SUBSCRIPTION s DISABLE; ALTER SUBSCRIPTION s SET (slot_name = NONE);")
    server.psql(MADE[slot], "DROP SUBSCRIPTION s;")


def connection(port: int) -> str:
    """Returns a subscriber's connection string."""
    return f"host=127.0.0.1 port={port} user=postgres dbname=shop"


def subscribe(server: Server, port: int, slot: str, options: str = "") -> str:
    """Creates a subscription, and returns what psql prints."""
    publications = next(", ".join(it.publications) for it in SHOP.subscribers if it.slot == slot)
    options = options.replace("WITH (", f"WITH (slot_name = {slot}, ") or f"WITH (slot_name = {slot})"
    return server.told(
        MADE[slot], f"CREATE SUBSCRIPTION s CONNECTION '{connection(port)}' PUBLICATION {publications} {options};")


def states(server: Server, slot: str) -> str:
    """Returns the states of a subscription's tables, after all are ready or time is up."""
    until = time.monotonic() + SECONDS
    while True:
        found = server.psql(MADE[slot], "SELECT string_agg(srsubstate::text, '') FROM pg_subscription_rel;")
        if found == "rrr" or time.monotonic() > until:
            return found
        time.sleep(0.05)
