"""What mends or allows what is refused of a table: statements, or an intention, after which nothing is refused."""

import copy
from collections.abc import Iterator
from dataclasses import replace
from itertools import combinations

from pgshard_tools.judging.database import OPERATIONS, Database, Table, full_name
from pgshard_tools.judging.refusals import CHANGES, OMISSIBLE, leaf_refusals, refusals_of
from pgshard_tools.judging.shares import Shares

FULL = "f"


def advice(database: Database, shares: Shares) -> list[str]:
    """Returns what mends a table of which something is refused, and what allows it."""
    return [it for it in (mending(database, shares), allowing(database, shares)) if it is not None]


def allowing(database: Database, shares: Shares) -> str | None:
    """Returns the intention under which nothing would be refused, as written in a file of --intent, or None if there is
    none."""
    name = full_name(shares.table)
    for count in range(1, len(OMISSIBLE) + 1):
        for some in combinations(OMISSIBLE, count):
            omitted = frozenset(some) | shares.omitted
            if refusals_of(database, replace(shares, omitted=omitted)):
                continue
            if omitted >= CHANGES:
                return f'if rows are only ever inserted, append-only = ["{name}"] in a file of --intent allows it'
            listed = ", ".join(f'"{it}"' for it in OMISSIBLE if it in omitted)
            return f'if that is on purpose, omitted."{name}" = [{listed}] in a file of --intent allows it'
    return None


def mending(database: Database, shares: Shares) -> str | None:
    """Returns statements after which nothing is refused, of this table or any other, or None if these are not known."""
    then, publish = completed(database, shares)
    if publish and is_mended(database, then, shares):
        return f"{publish} mends that"
    leaves = [it for it in shares.leaves if list(leaf_refusals(then, it, shares.omitted, ""))]
    whole, shares_then = with_full(then, shares, leaves)
    if leaves and is_mended(database, whole, shares_then):
        identity = f"ALTER TABLE {leaves[0]['quoted'] if not leaves[1:] else '..'} REPLICA IDENTITY FULL"
        return f"{publish}, with {identity}, mends that" if publish else f"{identity} mends that"
    return None


def completed(database: Database, shares: Shares) -> tuple[Database, str]:
    """Returns the database in which the publications that subscribers take publish what they leave out, and the
    statement for it, if there is one for all of them. Otherwise it is the same database."""
    then = copy.copy(database)
    then.publications = dict(database.publications)
    statements = []
    for name in dict.fromkeys(it for taken in shares.takers.values() for it in taken):
        publication = database.publications[name]
        wanted = [it for it in OPERATIONS if it in publication["operations"] or it not in shares.omitted]
        if wanted != [it for it in OPERATIONS if it in publication["operations"]]:
            then.publications[name] = publication | {"operations": wanted}
            statements.append((publication["quoted"], f"SET (publish = '{', '.join(wanted)}')"))
    names = [name for name, _ in statements]
    ends = {end for _, end in statements}
    if len(ends) != 1:
        return database, ""
    return then, f"ALTER PUBLICATION {names[0] if not names[1:] else '..'} {ends.pop()}"


def with_full(database: Database, shares: Shares, leaves: list[Table]) -> tuple[Database, Shares]:
    """Returns the same with FULL as the replica identity of some tables."""
    changed = {it["oid"]: it | {"identity": FULL} for it in leaves}
    then = copy.copy(database)
    then.tables = [changed.get(it["oid"], it) for it in database.tables]
    then.by_oid = {it["oid"]: it for it in then.tables}
    table = changed.get(shares.table["oid"], shares.table)
    return then, replace(shares, table=table, leaves=[changed.get(it["oid"], it) for it in shares.leaves])


def is_mended(before: Database, after: Database, shares: Shares) -> bool:
    """Returns whether nothing is refused of a table, and nothing of others that was not refused before."""
    return not refusals_of(after, shares) and set(all_refusals(after)) <= set(all_refusals(before))


def all_refusals(database: Database) -> Iterator[tuple[int, str]]:
    """Yields why the server refuses updates and deletes of all tables."""
    for table in database.tables:
        yield from ((table["oid"], it) for it in leaf_refusals(database, table, frozenset(), ""))
