"""Books with many rows, and commits of up to 1,000 commands."""

from collections.abc import Iterator

from .streams import CATALOG, SPLIT, sharded
from .table import NEW, Call

# A table that the catalog has besides `t`, but the book does not.
NAMES = "catalog.read CREATE TABLE t (id integer PRIMARY KEY, region text);CREATE TABLE u (id integer PRIMARY KEY);"

# The rows that the first commit inserts.
KEPT = "(1050, 'a') (1060, 'a')"

# Commands that are refused if the table has only these rows, and why.
REFUSED = [
    ("INSERT t (1050, 'b')", "DuplicateKey"), ("DELETE t (1051)", "NoSuchRow"),
    ("UPDATE t (1051) (1052, 'b')", "NoSuchRow"), ("UPDATE t (1050) (1060, 'b')", "DuplicateKey"),
    ("DELETE u (1050)", "NoTable"), ("INSERT t (1070)", "Row(Width)"),
    ("INSERT t (NULL, NULL)", "Row(NullInNotNull(0))"), ("UPDATE t (1050) (2147483648, 'b')", "Row(OutOfRange(0))")]

LENGTHS = [1, 2, 3, 10, 100, 999, 1_000]


def inserts(first: int, count: int) -> list[str]:
    """Returns inserts of rows with these numbers."""
    return [f"INSERT t ({number}, 'a')" for number in range(first, first + count)]


def commit(commands: list[str]) -> str:
    """Returns the script of a commit with these commands."""
    return " ".join(["COMMIT", ", ".join(commands)]).rstrip() + ";"


def many_rows() -> Iterator[Call]:
    """Inserts 10,000 rows from the last to the first, 100 in a commit, and deletes them from the first to the last."""
    yield from sharded()
    yield Call("book.new 1000", "ok")
    for number in range(100):
        last = 10_000 - 100 * number
        yield Call(f"book.commit 1 {commit(inserts(last - 99, 100)[::-1])}", f"Ok({number + 1})")
    yield Call("book.rows 0", " ".join(f"({number}, 'a')" for number in range(1, 10_001)))
    for number in range(100):
        deletes = [f"DELETE t ({row})" for row in range(100 * number + 1, 100 * number + 101)]
        yield Call(f"book.commit 1 {commit(deletes)}", f"Ok({number + 101})")
    yield Call("book.log", "200")
    yield Call("book.rows 0", "")
    yield NEW


def begun() -> Iterator[Call]:
    """Creates a book whose only commit inserts two rows."""
    yield Call("book.new 2", "ok")
    yield Call("book.commit 1 COMMIT INSERT t (1050, 'a'), INSERT t (1060, 'a');", "Ok(1)")


def left(length: int) -> Iterator[Call]:
    """Checks that a refusal has left the rows unchanged. Then the list, which without the command has this many
    entries, is accepted, or is empty."""
    yield Call("book.log", "1")
    yield Call("book.rows 0", KEPT)
    rest = inserts(1, length)
    yield Call(f"book.commit 2 {commit(rest)}", "Ok(2)" if rest else "Err(EmptyTransaction)")
    rows = " ".join([*(f"({number}, 'a')" for number in range(1, length + 1)), KEPT])
    yield Call("book.rows 0", rows)


def refusals() -> Iterator[Call]:
    """Checks that a refusal in the middle of a list changes no rows."""
    yield from sharded(CATALOG, SPLIT)
    yield Call(NAMES, "ok")
    for length in LENGTHS:
        middle = length // 2
        for command, fault in REFUSED:
            yield from begun()
            commands = [*inserts(1, middle), command, *inserts(middle + 1, length - middle - 1)]
            yield Call(f"book.commit 2 {commit(commands)}", f"Err(At({middle + 1}, {fault}))")
            yield from left(length - 1)
        yield from begun()
        yield Call(
            f"book.around 2 {middle} {commit(inserts(1, length - 1))}", f"Err(At({middle + 1}, NoTable))")
        yield from left(length - 1)
    yield NEW


def lists() -> Iterator[Call]:
    """Checks that a list may have at most 1,000 commands, and that their changes are copied."""
    yield from sharded()
    yield Call("book.new 9", "ok")
    yield Call(f"book.commit 1 {commit(inserts(1, 1_001))}", "Err(TooManyCommands)")
    yield Call(f"book.commit 1 {commit(inserts(1, 1_000))}", "Ok(1)")
    yield Call("book.rows 0", " ".join(f"({number}, 'a')" for number in range(1, 1_001)))
    yield Call("book.new 9", "ok")
    last = ["UPDATE t (1) (-1, NULL)", "DELETE t (2)", "TRUNCATE (t)"]
    yield Call(f"book.commit 7 {commit(inserts(1, 997) + last)}", "Ok(1)")
    changes = [f"INSERT 0 ({number}, 'a')" for number in range(1, 998)]
    changes += ["UPDATE 0 row (1, 'a') to (-1, NULL)", "DELETE 0 row (2, 'a')", "TRUNCATE [0]"]
    for call in ["entry", "copy", "shared"]:
        yield Call(f"book.{call} 1", "; ".join(["1 7", *changes]))


def calls() -> Iterator[Call]:
    """The calls of this topic."""
    yield from many_rows()
    yield from refusals()
    yield from lists()
