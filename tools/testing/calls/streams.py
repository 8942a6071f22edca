"""What the calls for commits and connections share: a table whose rows below 100 go to one subscriber and the others to
another, and names and texts at the limits of what is read."""

from collections.abc import Iterator

from .table import Call

CATALOG = (
    "CREATE TABLE t (id integer, region text, PRIMARY KEY (id));\\nALTER TABLE t REPLICA IDENTITY FULL;\\n"
    "CREATE PUBLICATION pa FOR TABLE t WHERE (id < 100);\\nCREATE PUBLICATION pb FOR TABLE t WHERE (id >= 100);\\n"
    "CREATE SUBSCRIPTION s0 CONNECTION '' PUBLICATION pa;\\nCREATE SUBSCRIPTION s1 CONNECTION '' PUBLICATION pb;")

SPLIT = "s 0 s 1 e 0 o 0 n 1 s 1 o 1 e 0 n 1 n 0"

TEXT = 65_535


def sharded(catalog: str = CATALOG, certificates: str = SPLIT) -> Iterator[Call]:
    """Creates a sharding that is accepted."""
    yield Call(f"catalog.read {catalog}", "ok")
    yield Call(f"check.texts {certificates}", "ok")


def long_name(letter: str, number: int) -> str:
    """Returns a name of 63 bytes."""
    return f"{60 * letter}{number:03}"


def wide_book() -> Iterator[Call]:
    """Creates a book of a table of 100 texts under FULL, whose only commit inserts the longest row and updates all of
    it."""
    columns = ", ".join(["c0 text PRIMARY KEY", *(f"c{number} text" for number in range(1, 100))])
    yield from sharded(
        f"CREATE TABLE t ({columns}); ALTER TABLE t REPLICA IDENTITY FULL; CREATE PUBLICATION pa FOR TABLE t;"
        "CREATE SUBSCRIPTION s0 CONNECTION '' PUBLICATION pa;", "o 0")
    yield Call("book.new 2", "ok")
    rest = 99 * f", '{TEXT * 'a'}'"
    row, other = (f"('{TEXT * letter}'{rest})" for letter in "ab")
    yield Call(f"book.commit 1 COMMIT INSERT t {row}, UPDATE t ('{TEXT * 'a'}') {other};", "Ok(1)")


def publications(count: int) -> str:
    """Returns the names of this many publications."""
    return ", ".join(long_name("p", number) for number in range(count))


def published_book() -> Iterator[Call]:
    """Creates a book, with a commit, of a table that has 64 publications, all of them in one subscription."""
    made = "".join(f"CREATE PUBLICATION {long_name('p', number)} FOR TABLE t;" for number in range(64))
    yield from sharded(
        f"CREATE TABLE t (id integer PRIMARY KEY);{made}CREATE SUBSCRIPTION s0 CONNECTION '' "
        f"PUBLICATION {publications(64)};", "o 0")
    yield Call("book.new 2", "ok")
    yield Call("book.commit 1 COMMIT INSERT t (7);", "Ok(1)")


def start(count: int) -> str:
    """Returns the command that starts the stream of `s0` with this many of the publications."""
    return (
        f"START_REPLICATION SLOT \"s0\" LOGICAL 0/0 (proto_version '1', publication_names '{publications(count)}')")
