"""A publisher with its subscribers: what `simulate` answers to each step.

A step is a tuple: ("commit", commands), ("open", i), ("hear", i, k), ("take", i), ("keep", i, want), ("deliver", i, k),
("report", i, want), ("lose", i), ("pump", i) or ("view",).
"""

from collections import Counter

from .catalogs import Catalog, Row
from .connections import Connection, count_of, end_of
from .messages import (
    BEGIN,
    COMMIT,
    COPY_BOTH,
    KEEPALIVE,
    STATUS,
    change_length,
    position_text,
    relation_length,
    start_length,
    truncate_length,
)
from .passing import shares_of, takes
from .tables import Change, Database, Rows
from .values import written_row

Step = tuple

# The greatest number of a script, which means all bytes.
ALL = 2**63 - 1


class Subscriber:
    """A subscriber's position, its rows after the commits up to that position, and its connection."""

    def __init__(self, catalog: Catalog, number: int) -> None:
        self.number = number
        self.name = catalog.subscriptions[number].name
        self.publications = [catalog.publications[at].name for at in catalog.subscriptions[number].publications]
        self.position = 0
        self.confirmed = 0
        self.connection: Connection | None = None
        self.applied = 0
        self.shard = [Rows(table) for table in catalog.tables]


class World:
    """Answers each step with lines."""

    def __init__(self, catalog: Catalog, limit: int = 1_000_000) -> None:
        self.catalog = catalog
        self.database = Database(catalog, limit)
        self.shares = [shares_of(catalog, table) for table in range(len(catalog.tables))]
        self.subscribers = [Subscriber(catalog, number) for number in range(len(catalog.subscriptions))]
        self.met: Counter[str] = Counter()

    def step(self, step: Step) -> list[str]:
        """Returns the lines of a step."""
        if step[0] == "commit":
            return [self.database.commit(step[1])]
        if step[0] == "view":
            return self.view()
        if step[1] >= len(self.subscribers):
            return ["no subscriber"]
        subscriber = self.subscribers[step[1]]
        if step[0] == "open":
            return [self.open(subscriber)]
        if subscriber.connection is None:
            return ["not open"]
        return [self.on_connection(subscriber, subscriber.connection, step)]

    def on_connection(self, subscriber: Subscriber, connection: Connection, step: Step) -> str:
        """Makes a step on an open connection."""
        match step:
            case ("hear", _, most):
                return f"heard {self.hear(subscriber, connection, most)}"
            case ("take", _):
                return self.take(subscriber, connection)
            case ("keep", _, _):
                return self.keep(connection)
            case ("deliver", _, most):
                return f"delivered {self.deliver(subscriber, connection, most)}"
            case ("report", _, want):
                connection.up.say(STATUS, (subscriber.position, want))
                return "reported"
            case ("lose", _):
                self.note("connections lost within a frame", connection.down.is_within_frame())
                subscriber.connection = None
                return "lost"
            case ("pump", _):
                return self.pump(subscriber, connection)
        raise ValueError(step)

    def open(self, subscriber: Subscriber) -> str:
        """Connects the subscriber, which asks for its stream from its position on."""
        if subscriber.connection is not None:
            return "already open"
        self.note("connections opened at a position", subscriber.position)
        asked = start_length(subscriber.name, subscriber.publications, subscriber.position)
        subscriber.connection = Connection(subscriber.position, asked)
        return "opened"

    def hear(self, subscriber: Subscriber, connection: Connection, most: int) -> int:
        """Lets the publisher read bytes. It answers statuses that request a reply with keepalives."""
        heard, frames = connection.up.move(most)
        for frame in frames:
            if frame == "start":
                connection.start(max(connection.opened_at, subscriber.confirmed), COPY_BOTH)
                continue
            position, want = frame
            subscriber.confirmed = max(subscriber.confirmed, position)
            if want:
                connection.down.say(KEEPALIVE, connection.sent)
        self.note("bytes heard in a piece", heard)
        return heard

    def take(self, subscriber: Subscriber, connection: Connection) -> str:
        """Lets the publisher send the next commit."""
        if connection.started is None:
            return "not started"
        if connection.taken == len(self.database.log):
            return "idle"
        connection.taken += 1
        connection.sent = end_of(connection.taken)
        seen = self.seen(subscriber, self.database.log[connection.taken - 1])
        if not seen:
            return f"skipped {connection.taken}"
        self.note("changes for a subscriber in a commit", len(seen))
        connection.down.say(BEGIN, None)
        for change in seen:
            self.say_change(connection, change)
        connection.down.say(COMMIT, connection.sent)
        return f"sent {connection.taken}"

    def seen(self, subscriber: Subscriber, changes: list[Change]) -> list[Change]:
        """Returns what a subscriber sees of changes. A row that it does not get is left out, and so is a change of
        which nothing is left."""
        found: list[Change] = []
        for change in changes:
            if change[0] == "truncate":
                tables = [table for table in change[1] if self.shares[table][subscriber.number] is not None]
                if tables:
                    found.append(("truncate", tables))
                continue
            table, *sides = change
            old, new = (side if self.passes(subscriber, table, side) else None for side in sides)
            if old is not None or new is not None:
                found.append((table, old, new))
        return found

    def passes(self, subscriber: Subscriber, table: int, row: Row | None) -> bool:
        """Returns whether there is a row, and the subscriber gets it."""
        return row is not None and takes(self.shares[table][subscriber.number], row)

    def say_change(self, connection: Connection, change: Change) -> None:
        """Sends a change, preceded by the Relations of tables that are sent for the first time."""
        truncated = change[0] == "truncate"
        for table in change[1] if truncated else [change[0]]:
            if table not in connection.relations:
                connection.relations.add(table)
                connection.down.say(relation_length(self.catalog.tables[table]), None)
        if truncated:
            connection.down.say(truncate_length(change[1]), None)
        else:
            table, old, new = change
            connection.down.say(change_length(self.catalog.tables[table], old, new), None)

    def keep(self, connection: Connection) -> str:
        """Sends a keepalive."""
        if connection.started is None:
            return "not started"
        connection.down.say(KEEPALIVE, connection.sent)
        return "kept"

    def deliver(self, subscriber: Subscriber, connection: Connection, most: int) -> int:
        """Lets bytes arrive at the subscriber."""
        delivered, frames = connection.down.move(most)
        subscriber.position = max([subscriber.position, *(frame for frame in frames if frame is not None)])
        self.note("bytes delivered in a piece", delivered)
        return delivered

    def pump(self, subscriber: Subscriber, connection: Connection) -> str:
        """Lets the subscriber get all that was committed, and report it."""
        self.hear(subscriber, connection, ALL)
        while self.take(subscriber, connection) != "idle":
            pass
        self.keep(connection)
        self.deliver(subscriber, connection, ALL)
        connection.up.say(STATUS, (subscriber.position, False))
        self.hear(subscriber, connection, ALL)
        return f"at {position_text(subscriber.position)}"

    def view(self) -> list[str]:
        """Returns the publisher's rows, and those of each subscriber."""
        lines = [f"log {len(self.database.log)}", *self.lines_of(self.database.tables)]
        for subscriber in self.subscribers:
            count = count_of(subscriber.position)
            self.apply(subscriber, count)
            at, confirmed = position_text(subscriber.position), position_text(subscriber.confirmed)
            lines.append(f"{subscriber.name} {at} {count} confirmed {confirmed}")
            shown = self.lines_of(subscriber.shard)
            lines += [f"{subscriber.name} {line}" for line in shown]
            self.note("rows of a subscriber in a view", len(shown))
        return lines

    def lines_of(self, tables: list[Rows]) -> list[str]:
        """Returns the rows of tables, each with its table's name."""
        lines = []
        for table, rows in zip(self.catalog.tables, tables):
            name = table.full_name()
            lines += [f"{name} {written_row(row)}" for row in rows.in_order()]
        return lines

    def apply(self, subscriber: Subscriber, count: int) -> None:
        """Brings the subscriber's shard up to date with what it gets of the tables after this many commits."""
        for changes in self.database.log[subscriber.applied:count]:
            for change in changes:
                if change[0] == "truncate":
                    for table in change[1]:
                        subscriber.shard[table] = Rows(self.catalog.tables[table])
                    continue
                table, old, new = change
                if self.passes(subscriber, table, old):
                    subscriber.shard[table].take_out(old)
                if self.passes(subscriber, table, new):
                    subscriber.shard[table].put(new)
        subscriber.applied = count

    def note(self, what: str, number: int) -> None:
        """Keeps the greatest number seen of a kind."""
        self.met[what] = max(self.met[what], number)
