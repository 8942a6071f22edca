"""What each subscriber should be sent for the commits of a script, computed row by row from the rules of the
documentation, without any use of pgshard.

Commit n has the LSN 64 n, ends at 64 n + 64, and has the transaction ID n + 2; table n, from 0, has the OID 16384 + n.
"""

from collections.abc import Callable
from dataclasses import dataclass, field

from . import messages

Row = tuple
Passes = Callable[[Row], bool | None]


@dataclass(frozen=True)
class Table:
    """A table of the schema public. Its columns are names with types. `key` and `identity` are numbers of columns;
    under FULL the identity consists of all columns."""

    name: str
    columns: tuple[tuple[str, str], ...]
    key: tuple[int, ...]
    letter: str
    identity: tuple[int, ...]

    def key_of(self, row: Row) -> Row:
        return tuple(row[at] for at in self.key)

    def identity_of(self, row: Row) -> Row:
        return tuple(row[at] for at in self.identity)

    def old_part(self, old: Row, new: Row | None) -> bytes:
        """Returns what a message contains of an old row that is deleted or that `new` replaces."""
        if self.letter == "f":
            return b"O" + messages.tuple_of(old)
        if new is not None and self.identity_of(old) == self.identity_of(new):
            return b""
        return b"K" + messages.tuple_of(tuple(value if at in self.identity else None for at, value in enumerate(old)))


@dataclass(frozen=True)
class Insert:
    table: str
    row: Row


@dataclass(frozen=True)
class Update:
    table: str
    key: Row
    row: Row


@dataclass(frozen=True)
class Delete:
    table: str
    key: Row


@dataclass(frozen=True)
class Truncate:
    tables: tuple[str, ...]


Command = Insert | Update | Delete | Truncate


@dataclass(frozen=True)
class Change:
    """A change of one row, or of some tables if both rows are missing."""

    tables: tuple[str, ...]
    old: Row | None = None
    new: Row | None = None


@dataclass(frozen=True)
class Subscriber:
    """A slot, the publications of its subscription, and which rows of each table they pass."""

    slot: str
    publications: tuple[str, ...]
    passes: dict[str, Passes]

    def takes(self, table: str, row: Row) -> bool:
        return table in self.passes and self.passes[table](row) is True


@dataclass
class Publisher:
    """Tables, their rows by key, and the changes of each commit."""

    tables: tuple[Table, ...]
    rows: dict[str, dict[Row, Row]] = field(default_factory=dict)
    log: list[list[Change]] = field(default_factory=list)

    def __post_init__(self) -> None:
        self.rows = {table.name: {} for table in self.tables}

    def table(self, name: str) -> tuple[int, Table]:
        """Returns a table with its OID."""
        return next((16384 + at, table) for at, table in enumerate(self.tables) if table.name == name)

    def commit(self, commands: list[Command]) -> None:
        """Makes a commit whose commands have no fault."""
        self.log.append([self.change(command) for command in commands])

    def change(self, command: Command) -> Change:
        match command:
            case Insert(name, row):
                self.rows[name][self.table(name)[1].key_of(row)] = row
                return Change((name,), new=row)
            case Update(name, key, row):
                old = self.rows[name].pop(key)
                self.rows[name][self.table(name)[1].key_of(row)] = row
                return Change((name,), old, row)
            case Delete(name, key):
                return Change((name,), self.rows[name].pop(key))
            case Truncate(names):
                for name in names:
                    self.rows[name].clear()
                return Change(names)

    def end(self) -> int:
        """Returns the end of the log."""
        return end_of(len(self.log))

    def shard(self, subscriber: Subscriber, table: str) -> list[Row]:
        """Returns the rows of a table that a subscriber should have, in the order of their keys."""
        return sorted(row for row in self.rows[table].values() if subscriber.takes(table, row))

    def transactions(self, subscriber: Subscriber, position: int = 0) -> list[list[tuple[int, bytes]]]:
        """Returns the messages of each commit that a subscriber is sent from a position on, without times. Each message
        has the log position with which it is sent."""
        told: set[str] = set()
        found = []
        for number, changes in enumerate(self.log, 1):
            if 64 * number < position:
                continue
            said = [it for change in changes for it in self.said(subscriber, change, told)]
            if said:
                first = messages.begin(64 * number, number + 2)
                last = messages.commit(64 * number, end_of(number))
                found.append([(64 * number, message) for message in [first, *said, last]])
        return found

    def stream(self, subscriber: Subscriber, position: int = 0) -> bytes:
        """Returns everything that a connection is sent, without clocks and times."""
        told = [it for transaction in self.transactions(subscriber, position) for it in transaction]
        return messages.COPY_BOTH_RESPONSE + b"".join(messages.xlog_data(*it) for it in told)

    def said(self, subscriber: Subscriber, change: Change, told: set[str]) -> list[bytes]:
        """Returns the message of a change, after the Relations of tables that are sent for the first time; or nothing
        if the subscriber gets nothing of the change."""
        message = self.message(subscriber, change)
        if message is None:
            return []
        first = [name for name in change.tables if name in subscriber.passes and name not in told]
        told.update(first)
        return [*map(self.relation, first), message]

    def message(self, subscriber: Subscriber, change: Change) -> bytes | None:
        if change.old is None and change.new is None:
            oids = [self.table(name)[0] for name in change.tables if name in subscriber.passes]
            return messages.truncate(oids) if oids else None
        oid, table = self.table(change.tables[0])
        had = change.old is not None and subscriber.takes(table.name, change.old)
        has = change.new is not None and subscriber.takes(table.name, change.new)
        if had and has:
            return messages.update(oid, table.old_part(change.old, change.new), change.new)
        if had:
            return messages.delete(oid, table.old_part(change.old, change.new))
        return messages.insert(oid, change.new) if has else None

    def relation(self, name: str) -> bytes:
        oid, table = self.table(name)
        columns = [(at in table.identity, *column) for at, column in enumerate(table.columns)]
        return messages.relation(oid, name, table.letter, columns)


def end_of(number: int) -> int:
    """Returns the end of a commit."""
    return 64 * number + 64


def command_text(command: Command) -> str:
    match command:
        case Insert(table, row):
            return f"INSERT {table} {row_text(row)}"
        case Update(table, key, row):
            return f"UPDATE {table} {row_text(key)} {row_text(row)}"
        case Delete(table, key):
            return f"DELETE {table} {row_text(key)}"
        case Truncate(tables):
            return f"TRUNCATE ({', '.join(tables)})"


def row_text(row: Row) -> str:
    return f"({', '.join(map(literal, row))})"


def literal(value: int | bool | str | None) -> str:
    match value:
        case None:
            return "NULL"
        case bool():
            return str(value).upper()
        case int():
            return str(value)
    return "'" + value.replace("'", "''") + "'"
