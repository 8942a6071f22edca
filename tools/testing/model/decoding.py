"""Messages as a subscriber reads them, according to section 55.9, Logical Replication Message Formats, of PostgreSQL's
documentation.

A message is read from left to right. The first byte that violates a rule is reported; bytes that are left over are
reported at the end.
"""

import functools
from typing import NamedTuple

# The letters of the replica identities: default, nothing, full, index.
IDENTITIES = b"dnfi"


class Fault(Exception):
    """Why a stream cannot be followed, in the words of a subscriber's answer."""


class Column(NamedTuple):
    """A column of a Relation. The last number is its type modifier."""

    is_flagged: bool
    name: str
    kind: int
    modifier: int


class Begin(NamedTuple):
    """The begin of a transaction, with the position of its Commit."""

    lsn: int


class Commit(NamedTuple):
    """The end of a transaction."""

    lsn: int
    end: int


class Relation(NamedTuple):
    """A table."""

    oid: int
    schema: str
    name: str
    identity: int
    columns: tuple[Column, ...]


# A row of a message: the texts of its values, or nulls.
Texts = tuple[str | None, ...]


class Change(NamedTuple):
    """An Insert, an Update or a Delete, with what it contains of the old row and of the new one."""

    oid: int
    old: Texts | None
    new: Texts | None
    letter: bytes


class Truncate(NamedTuple):
    """The tables that are emptied."""

    oids: tuple[int, ...]


Message = Begin | Commit | Relation | Change | Truncate


class Bytes:
    """The bytes of a message that have not been read yet."""

    def __init__(self, left: bytes) -> None:
        self.left = left

    def take(self, count: int) -> bytes:
        """Reads this many bytes."""
        if len(self.left) < count:
            raise Fault("Msg(Short)")
        taken, self.left = self.left[:count], self.left[count:]
        return taken

    def number(self, size: int) -> int:
        """Reads an unsigned number of this many bytes."""
        return int.from_bytes(self.take(size), "big")

    def signed(self, size: int) -> int:
        """Reads a signed number of this many bytes."""
        return int.from_bytes(self.take(size), "big", signed=True)

    def count(self, size: int) -> int:
        """Reads a count."""
        count = self.signed(size)
        if count < 0:
            raise Fault("Msg(BadCount)")
        return count

    def one_of(self, rule: bytes) -> bytes:
        """Reads a byte that the rule allows."""
        byte = self.take(1)
        if byte not in rule:
            raise unknown(byte)
        return byte

    def name(self) -> str:
        """Reads a text that ends with a zero byte."""
        end = self.left.find(b"\0")
        if end < 0:
            raise Fault("Msg(Short)")
        taken = self.take(end + 1)
        return text_of(taken[:-1])


def unknown(byte: bytes) -> Fault:
    """Returns the fault for a byte that violates a rule."""
    return Fault(f"Msg(Unknown({byte[0]}))")


def text_of(taken: bytes) -> str:
    """Decodes UTF-8."""
    try:
        return taken.decode("utf-8")
    except UnicodeDecodeError:
        raise Fault("Msg(BadText)") from None


@functools.lru_cache(maxsize=64)
def message_of(body: bytes) -> Message:
    """Reads a whole message."""
    left = Bytes(body)
    letter = left.take(1)
    message = rest_of(letter, left)
    if left.left:
        raise Fault("Msg(Trailing)")
    return message


def rest_of(letter: bytes, left: Bytes) -> Message:
    """Reads what follows a message's letter."""
    match letter:
        case b"B":
            lsn, _, _ = left.number(8), left.number(8), left.number(4)
            return Begin(lsn)
        case b"C":
            left.one_of(b"\0")
            lsn, end, _ = left.number(8), left.number(8), left.number(8)
            return Commit(lsn, end)
        case b"R":
            return relation_of(left)
        case b"I" | b"U" | b"D":
            return change_of(letter, left)
        case b"T":
            count, _ = left.count(4), left.take(1)
            return Truncate(tuple(left.number(4) for _ in range(count)))
    raise unknown(letter)


def relation_of(left: Bytes) -> Relation:
    """Reads a Relation after its letter."""
    oid, schema, name, identity = left.number(4), left.name(), left.name(), left.one_of(IDENTITIES)
    columns = tuple(column_of(left) for _ in range(left.count(2)))
    return Relation(oid, schema, name, identity[0], columns)


def column_of(left: Bytes) -> Column:
    """Reads a column. A flag says whether it belongs to the identity."""
    flags, name, kind, modifier = left.one_of(b"\0\1"), left.name(), left.number(4), left.signed(4)
    return Column(flags == b"\1", name, kind, modifier)


def change_of(letter: bytes, left: Bytes) -> Change:
    """Reads a change after its letter. The old row precedes the new one; an Update may lack it."""
    oid = left.number(4)
    marker = left.one_of({b"I": b"N", b"U": b"KON", b"D": b"KO"}[letter])
    old = None
    if marker != b"N":
        old = texts_of(left)
        if letter == b"D":
            return Change(oid, old, None, letter)
        left.one_of(b"N")
    return Change(oid, old, texts_of(left), letter)


def texts_of(left: Bytes) -> Texts:
    """Reads a row."""
    return tuple(value_of(left) for _ in range(left.count(2)))


def value_of(left: Bytes) -> str | None:
    """Reads a value: null, or a text. A value that is left out because it is unchanged is not supported."""
    match left.one_of(b"nut"):
        case b"n":
            return None
        case b"u":
            raise Fault("Msg(Toast)")
    return text_of(left.take(left.count(4)))
