"""Updates, deletes and truncations of sound tables, and what each subscriber has afterwards."""

import random
from collections.abc import Iterator

from .comparison import Finding, Judged, row_text
from .designs import NUMBER
from .oracle import Batch, Database, Subscriber
from .streams import Change

UPDATES, DELETES = 25, 5


def moved(database: Database, chance: random.Random, tables: list[Judged]) -> Iterator[Finding]:
    """Moves rows of tables, and compares what the subscribers have with what the tables have."""
    sound = [it for it in tables if len(it.rows) > 1 and not failing(database, it)]
    owned = {number: set(takers) for number, takers in database.heard.takers.items()}
    for table in sound:
        move(database, chance, table)
    faults = {number: fault for number, fault in apply(database.listen(), owned)}
    for table in sound:
        yield from kept(database, table, owned, faults)
    yield from truncated(database, sound, owned)


def failing(database: Database, table: Judged) -> bool:
    """Returns whether a slot failed because of one of its rows."""
    return any(it in database.heard.failed for it in table.rows)


def move(database: Database, chance: random.Random, table: Judged) -> None:
    """Gives some rows the values of other rows, and deletes a few."""
    names = [it.name for it in table.design.columns]
    some = chance.sample(table.rows, min(len(table.rows), UPDATES + DELETES))
    statements = [f"DELETE FROM {table.source} WHERE {NUMBER} = {it}" for it in some[UPDATES:]]
    if names:
        statements += [
            f"UPDATE {table.source} SET ({', '.join(names)}) = (SELECT {', '.join(names)} FROM {table.source} AS o "
            f"WHERE o.{NUMBER} = {chance.choice(table.rows)}) WHERE {NUMBER} = {it} AND EXISTS "
            f"(SELECT FROM {table.source} AS o WHERE o.{NUMBER} = {it})" for it in some[:UPDATES]]
    database.run("SELECT * FROM public.attack_insert(%s)", [statements])
    database.batches.append(Batch(some, database.position()))


def apply(changes: list[tuple[Subscriber, Change]], owned: dict[int, set[str]]) -> Iterator[tuple[int, str]]:
    """Applies changes as subscribers do. Yields rows that a subscriber is told to change, and does not have."""
    for subscriber, change in changes:
        if change.letter == "I" and change.new is not None:
            owned.setdefault(change.new, set()).add(subscriber.name)
        number = change.old if change.old is not None else change.new
        if change.letter in "UD" and number is not None:
            if subscriber.name not in owned.get(number, set()):
                yield number, f"{subscriber.name} is told to change a row that it does not have"
            if change.letter == "D":
                owned.setdefault(number, set()).discard(subscriber.name)


def kept(
    database: Database, table: Judged, owned: dict[int, set[str]], faults: dict[int, str],
) -> Iterator[Finding]:
    """Checks that each row is at one subscriber, and a deleted row at none."""
    present = {number for number, in database.run(f"SELECT {NUMBER} FROM {table.source}")}
    for number in table.rows:
        takers, failed = owned.get(number, set()), database.heard.failed.get(number, {})
        is_right = len(takers) == (1 if number in present else 0)
        if failed and not table.verdict.says_that_it_fails():
            yield table.finding("wrong sound: the replication stops at an update", f"{failed}",
                row_text(database, table.name, number))
            return
        if not failed and (number in faults or not is_right):
            words = faults.get(number, f"after updates {' and '.join(sorted(takers)) or 'nobody'} has it")
            yield table.finding("wrong sound: after updates", words, row_text(database, table.name, number))
            return


def truncated(database: Database, tables: list[Judged], owned: dict[int, set[str]]) -> Iterator[Finding]:
    """Checks that those who have rows are sent the TRUNCATE. A partition is truncated with its root, since a TRUNCATE
    of only a partition is not sent if the root is published."""
    done = {design: database.fault([f"TRUNCATE {design}"]) is None for design in {it.design.table for it in tables}}
    database.batches.append(Batch([], database.position()))
    told = {(subscriber.name, subscriber.stream.names[change.table].partition(".")[0].removesuffix("_more"))
            for subscriber, change in database.listen() if change.letter == "T"}
    for table in tables:
        having = {name for number in table.rows for name in owned.get(number, ())}
        missing = sorted(it for it in having if (it, table.design.name) not in told)
        if done[table.design.table] and missing and not failing(database, table):
            yield table.finding("wrong sound: TRUNCATE", f"{missing} are not told, and have rows")
