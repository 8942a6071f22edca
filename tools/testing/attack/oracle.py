"""A database with a logical slot for each subscriber, which shows what each subscriber is sent."""

import random
from collections.abc import Iterator, Sequence
from contextlib import contextmanager
from dataclasses import dataclass, field
from typing import Any

import psycopg2
import psycopg2.extensions

from .designs import NUMBER, Design
from .streams import Change, Stream

HELPERS = """
    CREATE FUNCTION public.attack_insert(statements text[]) RETURNS SETOF integer LANGUAGE plpgsql AS $$
    BEGIN
        -- The places of those that the server takes.
        FOR place IN 1 .. cardinality(statements) LOOP
            BEGIN
                EXECUTE statements[place];
                RETURN NEXT place;
            EXCEPTION WHEN others THEN NULL;
            END;
        END LOOP;
    END $$;
    CREATE FUNCTION public.attack_failing(query text, numbers bigint[]) RETURNS SETOF bigint LANGUAGE plpgsql AS $$
    DECLARE number bigint;
    BEGIN
        -- The numbers at which the query fails.
        FOREACH number IN ARRAY numbers LOOP
            BEGIN
                EXECUTE query USING number;
            EXCEPTION WHEN others THEN RETURN NEXT number;
            END;
        END LOOP;
    END $$;
"""
# Python's names of encodings that lack some texts.
CODECS = {"LATIN1": "latin-1", "EUC_JP": "euc_jp"}
# The number of rows for which a filter fails that are inserted.
FAILING = 3


@dataclass
class Subscriber:
    """A subscriber with a slot, and the publications that it takes."""

    name: str
    publications: list[str]
    stream: Stream = field(default_factory=Stream)

    @property
    def names(self) -> str:
        """Returns the names as pgoutput reads them."""
        return ",".join(f'"{it}"' for it in self.publications)


@dataclass
class Heard:
    """What the slots sent: who got each row, by its number, and whose decoding failed because of it, with the
    message."""

    takers: dict[int, set[str]] = field(default_factory=dict)
    failed: dict[int, dict[str, str]] = field(default_factory=dict)


@dataclass
class Batch:
    """Rows of one transaction."""

    numbers: list[int]
    end: str = ""


class Database:
    """A connection to a database with slots."""

    def __init__(self, words: str, name: str) -> None:
        self.name = name
        self.connection = psycopg2.connect(f"{words} dbname={name}", client_encoding="UTF8")
        self.connection.set_session(autocommit=True)
        self.cursor = self.connection.cursor()
        (encoding,), = self.run("SELECT getdatabaseencoding()")
        self.encoding = CODECS.get(str(encoding), "utf-8")
        self.subscribers: list[Subscriber] = []
        self.batches: list[Batch] = []
        self.next_number = 1
        self.heard = Heard()

    def run(self, statement: str, values: Sequence[object] | None = None) -> list[tuple[Any, ...]]:
        """Returns the rows of a statement's result."""
        self.cursor.execute(statement, values)
        return self.cursor.fetchall() if self.cursor.description else []

    @contextmanager
    def as_told(self) -> Iterator[None]:
        """Sets the settings in which SQL printed by judge is read: a backslash is an ordinary character, times are in
        UTC, and operators are PostgreSQL's own, even if a schema of the database has others with the same names."""
        self.run("SET timezone = 'UTC'; SET standard_conforming_strings = on; SET search_path = pg_catalog")
        try:
            yield
        finally:
            self.run("RESET timezone; RESET standard_conforming_strings; RESET search_path")

    @contextmanager
    def transaction(self) -> Iterator[None]:
        """A transaction, which an exception rolls back."""
        self.run("BEGIN")
        try:
            yield
        except BaseException:
            self.run("ROLLBACK")
            raise
        self.run("COMMIT")

    def fault(self, statements: Sequence[str]) -> str | None:
        """Runs some statements in one transaction. Returns the server's reason if it refuses them, or None."""
        try:
            with self.transaction():
                for statement in statements:
                    self.run(statement)
        except (psycopg2.Error, UnicodeEncodeError) as fault:
            # The second exception is for a text that the database's encoding lacks.
            return str(fault).splitlines()[0]
        return None

    def refusal(self, statement: str) -> str | None:
        """Returns why the server refuses a statement, which is rolled back."""
        self.run("BEGIN")
        try:
            self.run(statement)
        except psycopg2.Error as fault:
            return str(fault).splitlines()[0]
        finally:
            self.run("ROLLBACK")
        return None

    def open_slots(self, subscribers: list[Subscriber]) -> None:
        """Creates a slot for each subscriber that takes a publication."""
        self.subscribers = [it for it in subscribers if it.publications]
        for it in self.subscribers:
            self.run("SELECT pg_create_logical_replication_slot(%s, 'pgoutput')", [self.slot(it)])

    def close(self) -> None:
        """Drops the slots, and ends the connection."""
        self.connection.rollback()
        for it in self.subscribers:
            self.run("SELECT pg_drop_replication_slot(%s)", [self.slot(it)])
        self.connection.close()

    def slot(self, subscriber: Subscriber) -> str:
        """Returns the name of a slot, which is unique on the server."""
        return f"{self.name}_{subscriber.name}"

    def insert(self, design: Design, statements: Sequence[str]) -> list[int]:
        """Inserts the rows that the table accepts, and returns their numbers.

        Most of the rows for which a filter fails are left out, since a slot sends nothing after such a row; a few are
        inserted, each in a transaction of its own.
        """
        first = self.next_number
        statements = [it for it in statements if it.encode(self.encoding, "ignore").decode(self.encoding) == it]
        numbered = [it.replace("{number}", str(first + place)) for place, it in enumerate(statements)]
        self.next_number += len(statements)
        failing: list[int] = []
        self.run("BEGIN")
        self.run("SELECT * FROM public.attack_insert(%s)", [numbered])
        kept = self.present(design, first)
        if not self.reads_all(design):
            failing = self.failing(design, kept)
            self.run("ROLLBACK")
            kept = [it for it in kept if it not in set(failing)]
            self.run("BEGIN")
            self.run("SELECT * FROM public.attack_insert(%s)", [[numbered[it - first] for it in kept]])
        self.run("COMMIT")
        self.batches.append(Batch(kept, self.position()))
        for number in random.Random(first).sample(failing, min(FAILING, len(failing))):
            kept += self.insert_one(numbered[number - first], number)
        return kept

    def present(self, design: Design, first: int) -> list[int]:
        """Returns the rows that are in the table; a trigger may have discarded some."""
        found = self.run(f"SELECT {NUMBER} FROM {design.table} WHERE {NUMBER} >= {first} ORDER BY 1")
        return [number for number, in found]

    def reads_all(self, design: Design) -> bool:
        """Returns whether the server can compute all filters for all rows."""
        self.run("SAVEPOINT computed")
        try:
            self.run(f"SELECT {listed(design)} FROM {design.table}")
        except psycopg2.Error:
            self.run("ROLLBACK TO computed")
            return False
        return True

    def failing(self, design: Design, numbers: list[int]) -> list[int]:
        """Returns the rows for which the server cannot compute all filters."""
        query = f"SELECT {listed(design)} FROM {design.table} WHERE {NUMBER} = $1"
        found = self.run("SELECT * FROM public.attack_failing(%s, %s::bigint[])", [query, numbers])
        return [number for number, in found]

    def insert_one(self, statement: str, number: int) -> list[int]:
        """Inserts a row in a transaction of its own; returns its number, or nothing if the server refuses it."""
        try:
            self.run(statement)
        except psycopg2.Error:
            return []
        self.note(number)
        return [number]

    def note(self, number: int) -> None:
        """Records a row that was inserted in a transaction of its own."""
        self.batches.append(Batch([number], self.position()))

    def position(self) -> str:
        """Returns the end of the server's log."""
        (found,), = self.run("SELECT pg_current_wal_insert_lsn()::text")
        return str(found)

    def listen(self) -> list[tuple[Subscriber, Change]]:
        """Reads all slots up to the present, and records who got which row."""
        found = []
        for subscriber in self.subscribers:
            for change in self.read(subscriber):
                found.append((subscriber, change))
                if change.letter == "I" and change.new is not None:
                    self.heard.takers.setdefault(change.new, set()).add(subscriber.name)
        self.batches = []
        return found

    def read(self, subscriber: Subscriber) -> list[Change]:
        """Returns all changes that a slot sends. If a transaction fails, the slot is read transaction by
        transaction."""
        try:
            return self.taken(subscriber, None)
        except psycopg2.Error:
            found = []
            for batch in self.batches:
                try:
                    found.extend(self.taken(subscriber, batch.end))
                except psycopg2.Error as fault:
                    self.run("SELECT pg_replication_slot_advance(%s, %s)", [self.slot(subscriber), batch.end])
                    for number in batch.numbers:
                        self.heard.failed.setdefault(number, {})[subscriber.name] = str(fault).splitlines()[0]
            return found

    def taken(self, subscriber: Subscriber, end: str | None) -> list[Change]:
        """Returns the changes up to a log position, which the slot returns only once."""
        messages = self.run(
            "SELECT data FROM pg_logical_slot_get_binary_changes(%s, %s, NULL, 'proto_version', '1', "
            "'publication_names', %s)", [self.slot(subscriber), end, subscriber.names])
        return list(subscriber.stream.changes(bytes(it) for it, in messages))


def listed(design: Design) -> str:
    """Returns all filters of a table as columns of a query."""
    return ", ".join(f"({it}) IS TRUE" for it in design.filters()) or "NULL"
