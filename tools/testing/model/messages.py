"""Messages and frames: the bytes of an Insert, and the lengths of the others."""

import struct

from .catalogs import FULL, Row, Table
from .values import spelled, told_apart

FIRST_OID = 16384

# What precedes each message: the letter of CopyData, its length, the letter, two positions and a clock.
XLOG = 1 + 4 + 1 + 8 + 8 + 8
BEGIN = XLOG + 1 + 8 + 8 + 4
COMMIT = XLOG + 1 + 1 + 8 + 8 + 8
KEEPALIVE = 1 + 4 + 1 + 8 + 8 + 1
STATUS = 1 + 4 + 1 + 8 + 8 + 8 + 8 + 1
COPY_BOTH = 1 + 4 + 1 + 2


def tuple_of(row: Row) -> bytes:
    """Returns a row as messages contain it."""
    parts = [struct.pack(">H", len(row))]
    for value in row:
        if value is None:
            parts.append(b"n")
        else:
            text = spelled(value)
            parts.append(b"t" + struct.pack(">I", len(text)) + text)
    return b"".join(parts)


def insert_message(table: int, row: Row) -> bytes:
    """Returns the Insert message of a row."""
    return b"I" + struct.pack(">I", FIRST_OID + table) + b"N" + tuple_of(row)


def relation_length(table: Table) -> int:
    """Returns the length of the frame of a table's Relation."""
    names = [table.schema, table.name]
    columns = [1 + len(column.name.encode()) + 1 + 4 + 4 for column in table.columns]
    return XLOG + 1 + 4 + sum(len(name.encode()) + 1 for name in names) + 1 + 2 + sum(columns)


def change_length(table: Table, old: Row | None, new: Row | None) -> int:
    """Returns the length of the frame of a change of which the subscriber sees these rows."""
    length = XLOG + 1 + 4
    if old is not None:
        part = old_part(table, old, new)
        length += 0 if part is None else 1 + len(tuple_of(part))
    return length if new is None else length + 1 + len(tuple_of(new))


def old_part(table: Table, old: Row, new: Row | None) -> Row | None:
    """Returns what a message contains of an old row: all of it, or its identity, which an update leaves out if it is
    unchanged."""
    if table.identity == FULL:
        return old
    columns = table.identity_columns()
    if new is not None and told_apart(tuple(old[at] for at in columns)) == told_apart(tuple(new[at] for at in columns)):
        return None
    return tuple(value if at in columns else None for at, value in enumerate(old))


def truncate_length(tables: list[int]) -> int:
    """Returns the length of the frame of a Truncate."""
    return XLOG + 1 + 4 + 1 + 4 * len(tables)


def start_length(slot: str, publications: list[str], position: int) -> int:
    """Returns the length of the frame with which a subscriber asks for its stream."""
    names = ",".join(quoted(name) for name in publications).replace("'", "''")
    text = (
        f"START_REPLICATION SLOT {quoted(slot)} LOGICAL {position_text(position)} "
        f"(proto_version '1', publication_names '{names}')")
    return 1 + 4 + len(text.encode()) + 1


def quoted(name: str) -> str:
    """Returns a name in double quotes."""
    return '"' + name.replace('"', '""') + '"'


def position_text(position: int) -> str:
    """Returns a position as text: its high and its low half."""
    return f"{position >> 32:X}/{position & 0xFFFFFFFF:X}"
