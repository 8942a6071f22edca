"""Connections at the limits of what a client sends and of what is sent to it."""

from collections.abc import Iterator

from .streams import TEXT, published_book, start, wide_book
from .table import NEW, Call

# The Query that starts the stream of s0 at 0.
QUERY = (
    b"Q\0\0\0\x5aSTART_REPLICATION SLOT \"s0\" LOGICAL 0/0 (proto_version '1', publication_names '\"pa\"')\0").hex()

# A status that reports the log as flushed up to 128, and requests a reply.
STATUS = (b"d\0\0\0\x26r" + 3 * b"\0\0\0\0\0\0\0\x80" + b"\0\0\0\0\0\0\0\x05\x01").hex()

COPY_BOTH = b"W\0\0\0\x07\0\0\0".hex()

# The number of bytes that are sent for the first commit of the largest table: Begin, a Relation of 100 columns of which
# 10 have a name of two bytes and the others one of three, an Insert of 100 of the longest texts, an Update of 200 of
# them and Commit, each after the 30 bytes of its frame.
TOLD = (
    (30 + 21) + (30 + 17 + 10 * (1 + 2 + 1 + 8) + 90 * (1 + 3 + 1 + 8)) + (30 + 8 + 100 * (1 + 4 + TEXT))
    + (30 + 11 + 200 * (1 + 4 + TEXT)) + (30 + 26))

# How many statuses exceed 16 MiB together.
STATUSES = 430_186


def heard(started: str, replies: int) -> str:
    """Returns the answer of a connection that does not end."""
    return f"Ok(Heard {{ started: {started}, replies: {replies}, ended: None }})"


def longest_rows() -> Iterator[Call]:
    """Checks that a voice and a link send the longest rows."""
    yield from wide_book()
    yield Call("voice.new", "ok")
    yield Call("voice.start 0 0", "Ok(())")
    yield Call("voice.take 1 4", "Ok(Sent(1))")
    yield Call("voice.waiting", str(8 + TOLD))
    yield Call("voice.sent", "Some(128)")
    yield Call("link.new", "0")
    yield Call(f"link.hear 0 4 {QUERY}", heard("Some(0)", 0))
    yield Call("link.take 0 4", "Ok(Sent(1))")
    yield Call("link.waiting 0", str(8 + TOLD))
    yield Call(f"link.hear 0 4 {STATUS}", heard("None", 1))
    yield Call("link.waiting 0", str(8 + TOLD + 23))
    yield NEW


def query(length: int) -> str:
    """Returns a Query of this length, which consists of blanks and a start with all 64 publications."""
    command = start(64).encode()
    return (b"Q" + length.to_bytes(4, "big") + (length - 5 - len(command)) * b" " + command + b"\0").hex()


def longest_starts() -> Iterator[Call]:
    """Checks that an ear and a link accept the longest start, and no longer one."""
    for length, answer, said in [
            (65_536, heard("Some(0)", 0), COPY_BOTH), (65_537, "Err(FrameTooLong)", "")]:
        yield from published_book()
        yield Call("ear.new", "0")
        yield Call(f"ear.hear 0 0 {query(length)}", answer)
        yield Call("ear.lose 0", "ok")
        yield Call("link.new", "0")
        yield Call(f"link.hear 0 4 {query(length)}", answer)
        yield Call("link.output 0", said)
        yield NEW


def many_statuses() -> Iterator[Call]:
    """Sends many statuses in a piece of over 16 MiB. Each is answered by a keepalive of 23 bytes."""
    yield from published_book()
    yield Call("link.new", "0")
    yield Call(f"link.hear 0 4 {query(65_536)}", heard("Some(0)", 0))
    yield Call("link.take 0 4", "Ok(Sent(1))")
    yield Call("link.pass 0 1000", "ok")
    yield Call("link.waiting 0", "0")
    yield Call(f"link.hear 0 4 {STATUSES * STATUS}", heard("None", STATUSES))
    yield Call("link.waiting 0", str(23 * STATUSES))
    yield Call("book.confirmed 0", "128")
    yield NEW


def named() -> Iterator[Call]:
    """Checks that a start may name the 64 publications of its subscription, and no other number of them."""
    yield from published_book()
    other = "42704 publication \"pppppppppppppppppppppppppppppppppppppppppppppppppppppppppppp064\" does not exist"
    for count, answer in [
            (64, "slot 0 from 0"), (63, "22023 publications differ from those of slot \"s0\""), (65, other)]:
        yield Call(f"start.query 64 - {start(count)}", answer)


def calls() -> Iterator[Call]:
    """The calls of this topic."""
    yield from longest_rows()
    yield from longest_starts()
    yield from many_statuses()
    yield from named()
