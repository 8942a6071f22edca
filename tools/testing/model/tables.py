"""Tables of rows, and how commands change them.

A command is a tuple: ("insert", table, row), ("update", table, key, row), ("delete", table, key) or ("truncate",
tables). A change is (table, old row or None, new row or None), or ("truncate", tables).
"""

from .catalogs import Catalog, Row, Table
from .values import order_of, row_fault, told_apart

Command = tuple
Change = tuple

MOST_COMMANDS = 1_000


class Rows:
    """The rows of a table by primary key, and for each unique index the keys by its values, of rows in which none of
    them is null."""

    def __init__(self, table: Table) -> None:
        self.table = table
        self.by_key: dict[tuple, Row] = {}
        self.by_index: list[dict[tuple, tuple]] = [{} for _ in table.indexes]

    def key_of(self, row: Row) -> tuple:
        """Returns a row's primary key."""
        return told_apart(tuple(row[at] for at in self.table.key))

    def entries_of(self, row: Row) -> list[tuple | None]:
        """Returns a row's values in each index."""
        found = []
        for index in self.table.indexes:
            values = tuple(row[at] for at in index.columns)
            found.append(None if None in values else told_apart(values))
        return found

    def put(self, row: Row) -> None:
        """Adds a row."""
        key = self.key_of(row)
        self.by_key[key] = row
        for entries, entry in zip(self.by_index, self.entries_of(row)):
            if entry is not None:
                entries[entry] = key

    def take_out(self, row: Row) -> None:
        """Removes a row."""
        del self.by_key[self.key_of(row)]
        for entries, entry in zip(self.by_index, self.entries_of(row)):
            if entry is not None:
                del entries[entry]

    def is_taken(self, row: Row, but: tuple | None) -> bool:
        """Returns whether a row other than the one with this key has the same primary key, or the same values in an
        index."""
        key = self.key_of(row)
        if key != but and key in self.by_key:
            return True
        return any(
            entry is not None and entries.get(entry, but) != but
            for entries, entry in zip(self.by_index, self.entries_of(row)))

    def in_order(self) -> list[Row]:
        """Returns the rows in the order of outputs."""
        return sorted(self.by_key.values(), key=order_of)


class Database:
    """A publisher's tables, and its log: a list of changes for each commit."""

    def __init__(self, catalog: Catalog, limit: int) -> None:
        self.tables = [Rows(table) for table in catalog.tables]
        self.limit = limit
        self.log: list[list[Change]] = []

    def commit(self, commands: list[Command]) -> str:
        """Returns the answer of a commit. Either all of its changes are made or none."""
        if not commands:
            return "refused EmptyTransaction"
        if len(commands) > MOST_COMMANDS:
            return "refused TooManyCommands"
        if len(self.log) >= self.limit:
            return "refused LogFull"
        changes: list[Change] = []
        gone: list[list[Row]] = []
        for number, command in enumerate(commands, 1):
            fault = self.fault_of(command)
            if fault is not None:
                self.undo(changes, gone)
                return f"refused At {number} {fault}"
            self.apply(command, changes, gone)
        self.log.append(changes)
        return f"commit {len(self.log)}"

    def fault_of(self, command: Command) -> str | None:
        """Returns the fault of a command on the present tables."""
        if command[0] == "truncate":
            return None
        rows = self.tables[command[1]]
        row = None if command[0] == "delete" else command[-1]
        fault = None if row is None else row_fault(rows.table, row)
        if fault is not None:
            return f"Row {fault}"
        key = None if command[0] == "insert" else told_apart(command[2])
        if key is not None and key not in rows.by_key:
            return "NoSuchRow"
        return "DuplicateKey" if row is not None and rows.is_taken(row, key) else None

    def apply(self, command: Command, changes: list[Change], gone: list[list[Row]]) -> None:
        """Makes the changes of a command that has no fault, and records them."""
        if command[0] == "truncate":
            named = list(dict.fromkeys(command[1]))
            for at in named:
                gone.append(list(self.tables[at].by_key.values()))
                self.tables[at] = Rows(self.tables[at].table)
            changes.append(("truncate", named))
            return
        rows = self.tables[command[1]]
        old = None if command[0] == "insert" else rows.by_key[told_apart(command[2])]
        new = None if command[0] == "delete" else command[-1]
        self.replace(command[1], old, new)
        changes.append((command[1], old, new))

    def replace(self, table: int, old: Row | None, new: Row | None) -> None:
        """Replaces a row by another."""
        if old is not None:
            self.tables[table].take_out(old)
        if new is not None:
            self.tables[table].put(new)

    def undo(self, changes: list[Change], gone: list[list[Row]]) -> None:
        """Undoes changes, the last one first."""
        for change in reversed(changes):
            if change[0] == "truncate":
                for at in reversed(change[1]):
                    for row in gone.pop():
                        self.tables[at].put(row)
            else:
                self.replace(change[0], change[2], change[1])
