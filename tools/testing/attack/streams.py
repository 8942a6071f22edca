"""Reads which rows a logical slot sends: pgoutput's messages, as far as they contain a row's number.

Their layouts are in section 55.9 of PostgreSQL's documentation.
"""

import struct
from collections.abc import Iterable, Iterator
from dataclasses import dataclass

from .designs import NUMBER


@dataclass(frozen=True)
class Change:
    """A change of a row: its letter, the table, and the numbers of the old row and of the new one, if they are sent."""

    letter: str
    table: int
    old: int | None
    new: int | None


class Stream:
    """Reads messages in order. A Relation comes before the first change of its table."""

    def __init__(self) -> None:
        self.places: dict[int, int] = {}
        self.names: dict[int, str] = {}

    def changes(self, messages: Iterable[bytes]) -> Iterator[Change]:
        """Yields the changes in some messages."""
        for message in messages:
            letter = chr(message[0])
            if letter == "R":
                self.read_relation(message)
            elif letter in "IUD":
                yield self.change(letter, message)
            elif letter == "T":
                count, = struct.unpack_from("!i", message, 1)
                yield from (Change("T", it, None, None) for it in struct.unpack_from(f"!{count}I", message, 6))

    def read_relation(self, message: bytes) -> None:
        """Records which column of a table contains the rows' numbers."""
        oid, = struct.unpack_from("!I", message, 1)
        schema, name, rest = message[5:].split(b"\0", 2)
        self.names[oid] = f"{schema.decode()}.{name.decode()}"
        count, = struct.unpack_from("!h", rest, 1)
        left = rest[3:]
        for place in range(count):
            column, after = left[1:].split(b"\0", 1)
            left = after[8:]
            if column == NUMBER.encode():
                self.places[oid] = place

    def change(self, letter: str, message: bytes) -> Change:
        """Returns an Insert, an Update or a Delete."""
        oid, = struct.unpack_from("!I", message, 1)
        at, numbers = 5, {}
        while at < len(message):
            marker = chr(message[at])
            numbers[marker], at = self.row(oid, message, at + 1)
        return Change(letter, oid, numbers.get("O", numbers.get("K")), numbers.get("N"))

    def row(self, oid: int, message: bytes, at: int) -> tuple[int | None, int]:
        """Returns the number of the row that begins at a place, and the end of the row."""
        count, = struct.unpack_from("!h", message, at)
        at, found = at + 2, None
        for place in range(count):
            kind = message[at:at + 1]
            at += 1
            if kind in b"tb":
                size, = struct.unpack_from("!i", message, at)
                at += 4
                if place == self.places.get(oid):
                    found = int(message[at:at + size])
                at += size
        return found, at
