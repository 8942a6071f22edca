"""Compares what a PostgreSQL server sends subscribers for the shop's commits with what `pgshard serve` is expected to
send.

Positions, times, transaction IDs and OIDs differ between servers, and a server sends a table's Relation more than once.
Everything else is the same.
"""

from programs import without_subscriptions
from server import Server
from tally import Tally

from .publisher import Subscriber
from .shop import SHOP
from .subscribers_checks import transaction_text

DATABASE = "told"


def check_messages(tally: Tally, server: Server) -> None:
    """Compares the messages of each subscriber."""
    server.create(DATABASE, without_subscriptions(SHOP.catalog))
    for subscriber in SHOP.subscribers:
        server.psql(DATABASE, f"SELECT pg_create_logical_replication_slot('{slot_of(subscriber)}', 'pgoutput');")
    server.psql(DATABASE, "\n".join(map(transaction_text, SHOP.commits)))
    for subscriber in SHOP.subscribers:
        here = [message for transaction in SHOP.publisher().transactions(subscriber) for _, message in transaction]
        there = messages_of(server, subscriber)
        tally.check(f"what {subscriber.slot} is told here, and by a server", lines_of(here), lines_of(there))
        server.psql(DATABASE, f"SELECT pg_drop_replication_slot('{slot_of(subscriber)}');")


def slot_of(subscriber: Subscriber) -> str:
    """Returns the name of a slot that no other test uses."""
    return f"{DATABASE}_{subscriber.slot}"


def messages_of(server: Server, subscriber: Subscriber) -> list[bytes]:
    """Returns everything that a slot sends."""
    listed = server.psql(DATABASE, f"""
        SELECT encode(data, 'hex') FROM pg_logical_slot_get_binary_changes(
            '{slot_of(subscriber)}', NULL, NULL, 'proto_version', '1',
            'publication_names', '{','.join(subscriber.publications)}');
    """)
    return [bytes.fromhex(line) for line in listed.splitlines()]


def lines_of(messages: list[bytes]) -> str:
    """Returns a line for each message, without what differs between servers, and with names instead of OIDs."""
    names: dict[bytes, str] = {}
    return "".join(line_of(message, names) for message in messages)


def line_of(message: bytes, names: dict[bytes, str]) -> str:
    """Returns a message's line, or nothing if it is the Relation of a table that `names` already contains."""
    letter, oid = message[:1].decode(), message[1:5]
    match letter:
        case "B" | "C":
            return f"{letter}\n"
        case "T":
            oids = [message[at:at + 4] for at in range(6, len(message), 4)]
            return f"T {message[1:6].hex()} {' '.join(names[it] for it in oids)}\n"
        case "R":
            if oid in names:
                return ""
            _, name, _ = message[5:].split(b"\0", 2)
            names[oid] = name.decode()
    return f"{letter} {names[oid]} {message[5:].hex()}\n"
