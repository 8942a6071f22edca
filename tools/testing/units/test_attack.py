"""Tests how the attack reads a slot's messages, and what it generates."""

import random
import struct
import unittest

from attack.by_hand import columns_of
from attack.conditions import Column
from attack.designs import KINDS, Designs
from attack.rows import neighbours
from attack.streams import Change, Stream

BY_NAME = {it.name: it for it in KINDS}


def relation(oid: int, *columns: str) -> bytes:
    """Returns a Relation message according to section 55.9: each column with its flags, name, type and modifier."""
    listed = b"".join(b"\0" + it.encode() + b"\0" + struct.pack("!Ii", 25, -1) for it in columns)
    return b"R" + struct.pack("!I", oid) + b"shop\0orders\0f" + struct.pack("!h", len(columns)) + listed


def row(*values: str | None) -> bytes:
    """Returns a TupleData: each column is null, or a text with its length; a star means a value that is not sent."""
    found = struct.pack("!h", len(values))
    for value in values:
        if value is None or value == "*":
            found += b"n" if value is None else b"u"
        else:
            found += b"t" + struct.pack("!i", len(value.encode())) + value.encode()
    return found


class Streams(unittest.TestCase):
    def changes(self, *messages: bytes) -> list[Change]:
        return list(Stream().changes([relation(7, "a", "row_number", "b"), *messages]))

    def test_an_insert(self) -> None:
        self.assertEqual(self.changes(b"I\0\0\0\7N" + row("é", "12", None)), [Change("I", 7, None, 12)])

    def test_an_update(self) -> None:
        message = b"U\0\0\0\7O" + row(None, "3", "x") + b"N" + row("*", "4", "x")
        self.assertEqual(self.changes(message), [Change("U", 7, 3, 4)])
        self.assertEqual(self.changes(b"U\0\0\0\7N" + row("a", "4", "x")), [Change("U", 7, None, 4)])

    def test_a_delete(self) -> None:
        self.assertEqual(self.changes(b"D\0\0\0\7K" + row(None, "5", None)), [Change("D", 7, 5, None)])

    def test_a_truncation(self) -> None:
        message = b"T" + struct.pack("!ibII", 2, 0, 7, 9)
        self.assertEqual([it.table for it in self.changes(message)], [7, 9])

    def test_a_table_without_numbers(self) -> None:
        messages = [relation(8, "a"), b"I\0\0\0\x08N" + row("12")]
        self.assertEqual(list(Stream().changes(messages)), [Change("I", 8, None, None)])

    def test_the_names_of_tables(self) -> None:
        stream = Stream()
        list(stream.changes([relation(7, "a")]))
        self.assertEqual(stream.names, {7: "shop.orders"})


class Drawing(unittest.TestCase):
    def test_a_seed_gives_one_design(self) -> None:
        one, other = (Designs(random.Random(5), lambda kind, template: True, KINDS).design("d") for _ in range(2))
        self.assertEqual(one.statements(), other.statements())

    def test_neighbours(self) -> None:
        self.assertEqual(list(neighbours(Column("a", BY_NAME["int4"]), "'-5'")), ["-7", "-6", "-4", "-3"])
        self.assertIn("'a '", list(neighbours(Column("a", BY_NAME["text"]), "'a'")))
        self.assertEqual(list(neighbours(Column("a", BY_NAME["date"]), "'infinity'")), [])

    def test_the_columns_of_a_list(self) -> None:
        self.assertEqual(columns_of("a numeric(2,1) CHECK (a > 0), b text, CHECK (b <> 'x')"), [
            "a numeric(2,1) CHECK (a > 0)", "b text"])


if __name__ == "__main__":
    unittest.main()
