"""Frames of PostgreSQL's protocol ("55.7. Message Formats"), as a server sends them."""

import struct
import time
from collections.abc import Sequence

BOOLEAN, BIGINT, SMALLINT, INTEGER, TEXT, OID = 16, 20, 21, 23, 25, 26
CHARACTER, NAMES, VECTOR = 18, 1003, 22

QUERY, SYNC, PASSWORD, TERMINATE = b"Q", b"S", b"p", b"X"
ERROR, COPY_BOTH, COPY_DATA, COPY_DONE, COPY_FAIL = b"E", b"W", b"d", b"c", b"f"
# Frames of the extended query protocol; the next Sync is answered by ReadyForQuery.
EXTENDED = (b"P", b"B", b"D", b"E", b"C", b"H", b"F")

XLOG_DATA, KEEPALIVE, STATUS = b"w", b"k", b"r"

# The seconds from 1970 to 2000, when clocks start.
EPOCH = 946_684_800

Frame = tuple[bytes, bytes]


def frame(kind: bytes, body: bytes = b"") -> bytes:
    """A frame of this kind."""
    return kind + struct.pack("!I", len(body) + 4) + body


def text(word: str) -> bytes:
    """Returns a string with its zero byte. Zero bytes in it, and bytes that are not UTF-8, are replaced by question
    marks."""
    return word.encode(errors="replace").replace(b"\0", b"?") + b"\0"


def error(code: str, words: str, hint: str = "", severity: str = "ERROR") -> bytes:
    """An ErrorResponse."""
    fields = {"S": severity, "V": severity, "C": code, "M": words} | ({"H": hint} if hint else {})
    return frame(ERROR, b"".join(text(letter + value) for letter, value in fields.items()) + b"\0")


def parameter(name: str, value: str) -> bytes:
    """A ParameterStatus."""
    return frame(b"S", text(name) + text(value))


def authentication(code: int, body: bytes = b"") -> bytes:
    """A message about the client's authentication."""
    return frame(b"R", struct.pack("!I", code) + body)


def ready(in_transaction: bool = False) -> bytes:
    """ReadyForQuery."""
    return frame(b"Z", b"T" if in_transaction else b"I")


def complete(tag: str) -> bytes:
    """CommandComplete."""
    return frame(b"C", text(tag))


def rows(columns: Sequence[tuple[str, int]], listed: Sequence[tuple[str | None, ...]], tag: str) -> bytes:
    """The answer to a query: the columns with the OIDs of their types, and the rows."""
    described = b"".join(text(name) + struct.pack("!IHIhih", 0, 0, oid, -1, -1, 0) for name, oid in columns)
    answer = [frame(b"T", struct.pack("!H", len(columns)) + described)]
    answer += [frame(b"D", struct.pack("!H", len(row)) + b"".join(map(cell, row))) for row in listed]
    return b"".join(answer) + complete(tag)


def selected(columns: Sequence[tuple[str, int]], listed: Sequence[tuple[str | None, ...]]) -> bytes:
    """The answer to a SELECT."""
    return rows(columns, listed, f"SELECT {len(listed)}")


def cell(value: str | None) -> bytes:
    """A column of a row."""
    if value is None:
        return struct.pack("!i", -1)
    encoded = value.encode()
    return struct.pack("!i", len(encoded)) + encoded


def empty_copy(columns: int) -> bytes:
    """The answer to a COPY TO STDOUT of no rows, in text format."""
    response = frame(b"H", struct.pack("!BH", 0, columns) + bytes(2 * columns))
    return response + frame(COPY_DONE) + complete("COPY 0")


def copy_both() -> bytes:
    """CopyBothResponse, which begins a stream."""
    return frame(COPY_BOTH, bytes(3))


def clock() -> int:
    """The microseconds since the year 2000."""
    return int((time.time() - EPOCH) * 1_000_000)


def xlog_data(position: int, message: bytes) -> bytes:
    """Returns the frame of a message with a position."""
    return frame(COPY_DATA, XLOG_DATA + struct.pack("!QQQ", position, position, clock()) + message)


def keepalive(position: int, wants_reply: bool = False) -> bytes:
    """Returns a keepalive, which gives the log position up to which the client has been sent changes."""
    return frame(COPY_DATA, KEEPALIVE + struct.pack("!QQB", position, clock(), wants_reply))


def status(position: int, wants_reply: bool) -> bytes:
    """Returns a standby status update, as clients send it, that confirms a position."""
    return frame(COPY_DATA, STATUS + struct.pack("!QQQQB", position, position, position, clock(), wants_reply))


def position_text(position: int) -> str:
    """Returns a position in the text form of pg_lsn."""
    return f"{position >> 32:X}/{position & 0xFFFFFFFF:X}"
