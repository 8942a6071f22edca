"""A subscriber whose stream is cut after each byte, or whose connection is lost there. Its position is that of the
commit once the commit is complete, and a new connection gets what the lost one had not delivered."""

from collections.abc import Iterator

from .table import Call

# What a subscriber of the slot `s0` and the publication `pa` sends first.
START = (
    b"Q\0\0\0\x5aSTART_REPLICATION SLOT \"s0\" LOGICAL 0/0 (proto_version '1', publication_names '\"pa\"')\0").hex()

# CopyBothResponse, and then Begin, Relation, Insert and Commit of the row (7, 'eu') of `public.t`, as XLogData.
# Positions, clocks and times have bits above the lowest 32.
HEAD = b"w\0\0\x01\0\0\0\0\x40\0\0\x01\0\0\0\0\x40\x80\0\x01\0\0\0\0\x04"

STREAM = (
    b"W\0\0\0\x07\0\0\0"
    b"d\0\0\0\x32" + HEAD + b"B\0\0\x01\0\0\0\0\x40\x80\0\x01\0\0\0\0\x01\0\0\0\x03"
    b"d\0\0\0\x4a" + HEAD + b"R\0\0\x40\0public\0t\0f\0\x02\x01id\0\0\0\0\x17\xff\xff\xff\xff"
    b"\x01region\0\0\0\0\x19\xff\xff\xff\xff"
    b"d\0\0\0\x32" + HEAD + b"I\0\0\x40\0N\0\x02t\0\0\0\x017t\0\0\0\x02eu"
    b"d\0\0\0\x37" + HEAD + b"C\0\0\0\x01\0\0\0\0\x40\0\0\x01\0\0\0\0\x80\x80\0\x01\0\0\0\0\x01")

# The end of the commit, a clock, and the status that reports everything up to that end as flushed, with the clock.
END = 0x0100_0000_0080

NOW = 0x8000_0100_0000_0006

STATUS = (b"d\0\0\0\x26r" + 3 * b"\0\0\x01\0\0\0\0\x80" + b"\x80\0\x01\0\0\0\0\x06\0").hex()


def opened() -> Iterator[Call]:
    """Opens a connection of a subscriber."""
    yield Call("subscriber.new s0 pa", "ok")
    yield Call("subscriber.open", "Ok(())")


def fed(piece: bytes) -> Call:
    """Feeds the subscriber a piece."""
    return Call(f"subscriber.feed {piece.hex()}".rstrip(), "Ok(())")


def position(place: int) -> Call:
    """Expects the subscriber's position."""
    return Call("subscriber.position", str(place))


def cut(place: int) -> Iterator[Call]:
    """Sends the stream in two pieces."""
    yield from opened()
    yield Call("subscriber.output", START)
    yield Call(f"subscriber.pass {len(START) // 2}", "ok")
    yield fed(STREAM[:place])
    yield position(0 if place < len(STREAM) else END)
    yield fed(STREAM[place:])
    yield position(END)
    yield Call(f"subscriber.status {NOW} false", "Ok(())")
    yield Call("subscriber.output", STATUS)


def lost(place: int) -> Iterator[Call]:
    """Sends the first bytes of the stream, and then the stream of the next connection."""
    yield from opened()
    yield fed(STREAM[:place])
    yield Call("subscriber.lose", "ok")
    yield Call("subscriber.open", "Ok(())")
    yield fed(STREAM if place < len(STREAM) else STREAM[:8])
    yield position(END)
    yield Call("subscriber.rows 16384", "(7, 'eu')")


def calls() -> Iterator[Call]:
    """The calls of this topic."""
    for place in range(len(STREAM) + 1):
        yield from cut(place)
        yield from lost(place)
