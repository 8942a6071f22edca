"""Records what the clients of a slot were sent in a temporary file, so that it can be sent again from the beginning."""

import asyncio
import os
import struct
import tempfile
from array import array
from bisect import bisect_left
from collections.abc import Iterator, Sequence

from pgshard_tools.fronting import frames
from pgshard_tools.fronting.frames import Frame

# The beginning of the log, which is the position of the first commit.
BEGIN_OF_LOG = 64

# The offsets of the message in an XLogData, and of the message's letter; of the position of its commit in a Begin, of
# the end of its transaction in a Commit, and of the OID in a Relation.
MESSAGE = 25
LETTER = slice(25, 26)
BEGIN_POSITION = slice(26, 34)
COMMIT_END = slice(35, 43)
RELATION_OID = slice(26, 30)
# The offset of the position in a keepalive.
KEPT_POSITION = slice(1, 9)

# How many bytes of a transaction are kept in memory before they are written.
PIECE = 1 << 20


class Spool:
    """A temporary file to which all recordings are written. It is removed when the program ends."""

    def __init__(self) -> None:
        self.file = tempfile.TemporaryFile(buffering=0)
        self.end = 0

    def append(self, kept: bytes | bytearray) -> int:
        """Writes some bytes. Returns their position in the file."""
        begin, at = self.end, 0
        while at < len(kept):
            at += os.pwrite(self.file.fileno(), kept[at:], begin + at)
        self.end = begin + len(kept)
        return begin

    def read(self, begin: int, length: int) -> bytes:
        """Returns the bytes at a place of the file."""
        return os.pread(self.file.fileno(), length, begin)


class Recording:
    """The consecutive transactions of a slot from a position on."""

    def __init__(self, spool: Spool) -> None:
        self.spool = spool
        # The position from which on nothing is missing, None if it is not known; and the position up to which clients
        # were sent the log, 0 before they were sent anything.
        self.begin: int | None = None
        self.reach = 0
        # The pieces of transactions: for each, the position of its transaction, its place in the file, and its length.
        self.positions, self.places, self.lengths = array("Q"), array("Q"), array("Q")
        self.recorded = 0
        self.relations: dict[bytes, bytes] = {}
        # The transaction that is being sent: its position, None between transactions and in one that has been recorded
        # already, and the part of it that has not been written.
        self.position: int | None = None
        self.open = bytearray()
        self.fault: str | None = None
        # Set when more is recorded, or nothing more will be; the next event is a new one.
        self.grown = asyncio.Event()

    def covers(self, position: int) -> bool:
        """Returns whether everything from a position on is recorded."""
        return self.begin is not None and self.begin <= max(position, BEGIN_OF_LOG) and self.fault is None

    def fits(self, position: int) -> bool:
        """Returns whether a stream that starts at a position leaves no gap."""
        return (self.begin is None or self.begin <= max(position, BEGIN_OF_LOG)) and position <= self.reach

    def take(self, told: Sequence[Frame]) -> None:
        """Records what a client is sent. A file that cannot be written ends the recording, not the stream."""
        for kind, body in told:
            if kind == frames.COPY_DATA and body[:1] == frames.KEEPALIVE:
                self.take_keepalive(number(body[KEPT_POSITION]))
            elif kind == frames.COPY_DATA and body[:1] == frames.XLOG_DATA:
                if body[LETTER] == b"C":
                    self.reach = max(self.reach, number(body[COMMIT_END]))
                if self.fault is None:
                    self.try_message(body)
        self.announce()

    def announce(self) -> None:
        """Wakes those that wait for more."""
        self.grown.set()
        self.grown = asyncio.Event()

    def end(self, why: str) -> None:
        """Ends the recording, and gives readers the reason."""
        self.fault = self.fault or why
        self.announce()

    def try_message(self, body: bytes) -> None:
        """Records a message, unless the file cannot be written."""
        try:
            self.take_message(body)
        except OSError as fault:
            self.fault = f"the temporary file cannot be written: {fault.strerror}"
            self.open.clear()

    def take_keepalive(self, position: int) -> None:
        """Stores the position in a keepalive. Before anything else has been sent, this is where the stream starts."""
        if self.reach == 0:
            self.begin = position
        self.reach = max(self.reach, position)

    def take_message(self, body: bytes) -> None:
        """Records a message, unless its transaction has been recorded already."""
        letter = body[LETTER]
        if letter == b"B":
            self.forget_unfinished()
            position = number(body[BEGIN_POSITION])
            self.position = position if position >= self.recorded else None
        elif letter == b"R":
            self.relations[body[RELATION_OID]] = body[MESSAGE:]
        if self.position is not None:
            self.open += frames.frame(frames.COPY_DATA, body)
            if letter == b"C" or len(self.open) >= PIECE:
                self.keep(self.position)
        if letter == b"C":
            self.recorded = max(self.recorded, number(body[COMMIT_END]))
            self.position = None

    def forget_unfinished(self) -> None:
        """Discards what was recorded of a transaction whose end has not arrived."""
        self.open.clear()
        while self.positions and self.positions[-1] >= self.recorded:
            for column in self.positions, self.places, self.lengths:
                column.pop()

    def keep(self, position: int) -> None:
        """Writes the part of a transaction that has arrived."""
        place = self.spool.append(self.open)
        self.positions.append(position)
        self.places.append(place)
        self.lengths.append(len(self.open))
        self.open.clear()

    def from_position(self, position: int) -> Iterator[bytes]:
        """Yields the recorded transactions from a position on, with the Relations of all tables in the first one, as at
        the beginning of each stream. This includes what is recorded in the meantime."""
        first = at = bisect_left(self.positions, position)
        while at < len(self.positions) and self.positions[at] < self.recorded:
            piece = self.spool.read(self.places[at], self.lengths[at])
            yield self.with_relations(piece, self.positions[at]) if at == first else piece
            at += 1

    def with_relations(self, piece: bytes, position: int) -> bytes:
        """Returns the first piece of a transaction with all Relations after its Begin."""
        begin = 1 + struct.unpack_from("!I", piece, 1)[0]
        told = [frames.xlog_data(position, relation) for relation in self.relations.values()]
        return b"".join([piece[:begin], *told, piece[begin:]])


def number(body: bytes) -> int:
    """Returns a number of the protocol."""
    return int.from_bytes(body, "big")
