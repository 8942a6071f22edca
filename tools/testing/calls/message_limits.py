"""Messages of the longest rows and names, truncated messages, and what is sent for the largest commits."""

import pathlib
from collections.abc import Iterator

from .streams import CATALOG, TEXT, long_name, sharded, wide_book
from .table import NEW, Call, calls_of

MESSAGES = pathlib.Path(__file__).resolve().parent / "messages.calls"

# The beginning of calls in `messages.calls` on a server's messages.
AGAIN = "decode.again "


def server_messages() -> Iterator[str]:
    """Yields a server's messages, which are decoded and encoded again."""
    for call in calls_of(MESSAGES):
        if call.line == AGAIN + call.answer:
            yield call.answer


def cut_short() -> Iterator[Call]:
    """Checks that each proper prefix of a message is too short."""
    for message in server_messages():
        for length in range(0, len(message), 2):
            yield Call((AGAIN + message[:length]).rstrip(), "Short")


def rows() -> Iterator[Call]:
    """Checks a row of 100 of the longest texts. Its message is appended to another one."""
    row = " ".join(100 * [f"'{TEXT * 'a'}"])
    cells = 100 * f"740000ffff{TEXT * '61'}"
    message = f"490000403f4e0064{cells}"
    for call in ["inserts", "rows"]:
        yield Call(f"encode.{call} 16447 {row}", message)
        yield Call(f"encode.{call} 16447 null|{row}", f"490000403f4e00016e{message}")
    yield Call(AGAIN + message, message)


def relations() -> Iterator[Call]:
    """Checks a table of 100 columns with the longest names, of which the first is the key."""
    schema, table = long_name("s", 0), long_name("t", 0)
    columns = [long_name("c", number) for number in range(100)]
    declared = ", ".join(f"{column} text" for column in columns)
    yield Call(
        f"catalog.read CREATE SCHEMA {schema}; CREATE TABLE {schema}.{table} ({declared}, "
        f"PRIMARY KEY ({columns[0]}));", "ok")
    message = (
        b"R\0\0\x40\x3f" + schema.encode() + b"\0" + table.encode() + b"\0d\0\x64"
        + b"".join(
            bytes([number == 0]) + column.encode() + b"\0\0\0\0\x19\xff\xff\xff\xff"
            for number, column in enumerate(columns))).hex()
    yield Call("encode.relation 63", message)
    yield Call(AGAIN + message, message)


def lengths_of_inserts(rows: range) -> str:
    """Returns the lengths of the messages for inserts of (7, 'a'), (8, 'a') .. into the table `t` under DEFAULT: Begin,
    the Relation, the Inserts, and Commit."""
    relation = 1 + 4 + len(b"public\0t\0d") + 2 + (1 + len(b"id\0") + 8) + (1 + len(b"region\0") + 8)
    inserts = [1 + 4 + 1 + 2 + 5 + len(str(row)) + 5 + 1 for row in rows]
    lengths = [21, relation, *inserts, 26]
    return " ".join([f"{len(lengths)}:", *map(str, lengths)])


def large_commits() -> Iterator[Call]:
    """Checks that a commit of 1,000 commands is sent in parts: 99 of its rows are below 100. The longest message is an
    update of the longest texts: eleven bytes, and twice 100 columns of a letter, a length and a text."""
    yield from sharded(CATALOG.replace("ALTER TABLE t REPLICA IDENTITY FULL;\\n", ""))
    yield Call("book.new 9", "ok")
    inserts = ", ".join(f"INSERT t ({number}, 'a')" for number in range(1, 1_001))
    yield Call(f"book.commit 1 COMMIT {inserts};", "Ok(1)")
    for subscriber, numbers in [(0, range(1, 100)), (1, range(100, 1_001))]:
        yield Call("messages.new false", "ok")
        yield Call(f"messages.lengths {subscriber} 1", lengths_of_inserts(numbers))
    yield NEW
    yield from wide_book()
    yield Call("messages.new true", "ok")
    row = 100 * (1 + 4 + TEXT)
    yield Call("messages.lengths 0 1", f"4: 21 {8 + row} {11 + 2 * row} 26")


def calls() -> Iterator[Call]:
    """The calls of this topic."""
    yield from cut_short()
    yield from rows()
    yield from relations()
    yield from large_commits()
