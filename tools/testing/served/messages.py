"""Messages of logical replication in protocol version 1, and the frames around them, as defined in PostgreSQL's
documentation (55.7 and 55.9). Nothing here is taken from pgshard."""

import struct

TYPE_OIDS = {"boolean": 16, "bigint": 20, "smallint": 21, "integer": 23, "text": 25}

COPY_BOTH_RESPONSE = bytes.fromhex("57 00000007 00 0000")
COPY_DONE = bytes.fromhex("63 00000004")
TERMINATE = bytes.fromhex("58 00000004")

# The offset of the clock in the body of an XLogData and of a keepalive, and of the time in a Begin and a Commit.
CLOCKS = {b"w": 17, b"k": 9}
TIMES = {b"B": 9, b"C": 18}

# The offset of the message in the frame of an XLogData.
MESSAGE = 30


def begin(position: int, xid: int) -> bytes:
    """Returns a Begin, without a time."""
    return b"B" + struct.pack("!QQI", position, 0, xid)


def commit(position: int, end: int) -> bytes:
    """Returns a Commit, without a time."""
    return b"C\0" + struct.pack("!QQQ", position, end, 0)


def relation(oid: int, name: str, identity: str, columns: list[tuple[bool, str, str]]) -> bytes:
    """Returns a Relation. Each column has a flag, a name and a type."""
    told = b"R" + struct.pack("!I", oid) + named("public") + named(name)
    told += identity.encode() + struct.pack("!H", len(columns))
    for is_flagged, column, kind in columns:
        told += bytes([is_flagged]) + named(column) + struct.pack("!Ii", TYPE_OIDS[kind], -1)
    return told


def insert(oid: int, row: tuple) -> bytes:
    return b"I" + struct.pack("!I", oid) + b"N" + tuple_of(row)


def update(oid: int, old: bytes, row: tuple) -> bytes:
    return b"U" + struct.pack("!I", oid) + old + b"N" + tuple_of(row)


def delete(oid: int, old: bytes) -> bytes:
    return b"D" + struct.pack("!I", oid) + old


def truncate(oids: list[int]) -> bytes:
    return b"T" + struct.pack("!IB", len(oids), 0) + b"".join(struct.pack("!I", oid) for oid in oids)


def named(name: str) -> bytes:
    return name.encode() + b"\0"


def tuple_of(row: tuple) -> bytes:
    return struct.pack("!H", len(row)) + b"".join(map(cell_of, row))


def cell_of(value: int | bool | str | None) -> bytes:
    match value:
        case None:
            return b"n"
        case bool():
            text = b"t" if value else b"f"
        case _:
            text = str(value).encode()
    return b"t" + struct.pack("!I", len(text)) + text


def frame(kind: bytes, body: bytes) -> bytes:
    return kind + struct.pack("!I", len(body) + 4) + body


def xlog_data(position: int, message: bytes) -> bytes:
    """Returns the frame of a message, without a clock."""
    return frame(b"d", b"w" + struct.pack("!QQQ", position, position, 0) + message)


def keepalive(position: int) -> bytes:
    """Returns a keepalive that requests no reply, without a clock."""
    return frame(b"d", b"k" + struct.pack("!QQB", position, 0, 0))


def status(flushed: int, wants_reply: bool = False) -> bytes:
    """Returns a standby status update of a client that has flushed and applied everything that it has written."""
    return frame(b"d", b"r" + struct.pack("!QQQQB", flushed, flushed, flushed, 0, wants_reply))


def start(slot: str, position: int, publications: list[str]) -> bytes:
    """Returns the query that starts a slot's stream."""
    names = ",".join(f'"{name}"' for name in publications)
    return query(
        f'START_REPLICATION SLOT "{slot}" LOGICAL {written(position)} '
        f"(proto_version '1', publication_names '{names}')")


def query(text: str) -> bytes:
    return frame(b"Q", named(text))


def error_response(code: str, text: str) -> bytes:
    return frame(b"E", b"SERROR\0VERROR\0" + named(f"C{code}") + named(f"M{text}") + b"\0")


def written(position: int) -> str:
    """Returns a position in the text form of pg_lsn."""
    return f"{position >> 32:X}/{position & 0xFFFFFFFF:X}"


def frames_of(sent: bytes) -> tuple[list[bytes], bytes]:
    """Returns the complete frames at the beginning, and the remaining bytes."""
    frames, at = [], 0
    while len(sent) >= at + 5:
        end = at + 1 + int.from_bytes(sent[at + 1:at + 5], "big")
        if len(sent) < end:
            break
        frames.append(sent[at:end])
        at = end
    return frames, sent[at:]


def without_times(sent: bytes) -> bytes:
    """Returns the bytes without the clocks of complete frames and without the times of their messages."""
    frames, left = frames_of(sent)
    return b"".join(map(without_clock, frames)) + left


def without_clock(whole: bytes) -> bytes:
    """Returns a frame without its clock, and its message without a time."""
    letter = whole[5:6] if whole[:1] == b"d" else b""
    if letter in CLOCKS:
        whole = blanked(whole, 5 + CLOCKS[letter])
    return whole[:MESSAGE] + without_time(whole[MESSAGE:]) if letter == b"w" else whole


def without_time(message: bytes) -> bytes:
    """Returns a message without its time."""
    return blanked(message, TIMES[message[:1]]) if message[:1] in TIMES else message


def blanked(given: bytes, at: int) -> bytes:
    return given[:at] + bytes(8) + given[at + 8:]


def time_of(message: bytes) -> int | None:
    """Returns the time of a Begin or a Commit."""
    at = TIMES.get(message[:1])
    return None if at is None else int.from_bytes(message[at:at + 8], "big")


def is_commit(whole: bytes) -> bool:
    """Returns whether a frame contains a Commit."""
    return whole[MESSAGE:MESSAGE + 1] == b"C"


def end_in(frames: list[bytes], before: int) -> int:
    """Returns the end of the last transaction in the frames, as its Commit says, or the stream's previous position."""
    ends = [whole[MESSAGE + 10:MESSAGE + 18] for whole in frames if is_commit(whole)]
    return int.from_bytes(ends[-1], "big") if ends else before
