"""Which publications carry the rows of a table, and who gets which of them, by the server's rules.

docs/JUDGING.md lists the rules, with the sections of PostgreSQL's documentation.
"""

from collections.abc import Iterator, Mapping, Sequence
from dataclasses import dataclass, field

from pgshard_tools.judging.database import OPERATIONS, Database, Subscriber, Table, full_name

# Subscribers, each with the publications of a table that it takes.
Takers = dict[str, list[str]]
Filters = frozenset[str | None]


@dataclass
class Shares:
    """A table that is judged: which publications carry its rows, each with its filter or None, and who takes which.

    The rows of a partitioned table that is published as one are those of its partitions. `streams` has the publications
    through which a subscriber is sent the rows, and `takers` those of them that publish INSERT, since these decide
    where a row goes. `silent` has partitions of which the server sends nothing.
    """

    table: Table
    filters: dict[str, str | None]
    takers: Takers
    leaves: list[Table]
    streams: Takers = field(default_factory=dict)
    operations: dict[str, list[str]] = field(default_factory=dict)
    subscribers: Sequence[Subscriber] = ()
    sent_as: set[int] = field(default_factory=set)
    silent: list["Shares"] = field(default_factory=list)
    undecided: list[str] = field(default_factory=list)
    # The full names of the table and of those above it, and the operations that it leaves out on purpose.
    names: frozenset[str] = frozenset()
    omitted: frozenset[str] = frozenset()


def shares_of_all(database: Database, subscribers: Sequence[Subscriber]) -> list[Shares]:
    """Returns all tables that are judged."""
    found: list[Shares | None] = []
    for table in database.tables:
        if table["kind"] != "p" and not any(oid in database.by_oid for oid in table["ancestors"][-1:]):
            # The table above it need not be the root, which may be published by nobody.
            found.append(shares_of(database, table, [table], subscribers) if table["is_publishable"]
                         else silent_shares(database, table, subscribers))
        elif table["kind"] == "p" and not table["ancestors"]:
            found.extend(shares_of_tree(database, table, subscribers))
    return [it for it in found if it is not None]


def shares_of_tree(database: Database, root: Table, subscribers: Sequence[Subscriber]) -> list[Shares | None]:
    """Returns a partitioned table as one table, if all its rows are published via the root; otherwise each
    partition."""
    leaves = [it for it in database.tables if root["oid"] in it["ancestors"] and it["kind"] != "p"]
    sent = [it for it in leaves if it["is_publishable"]]
    silent = [it for it in map(lambda leaf: silent_shares(database, leaf, subscribers), leaves) if it is not None]
    if not sent:
        empty = shares_of(database, root, [root], subscribers) if not leaves else None
        return [empty, *silent]
    ways = {
        name: {database.published_as(publication, leaf) for leaf in sent}
        for name, publication in database.publications.items()}
    if all(way in ({root["oid"]}, {None}) for way in ways.values()):
        whole = shares_of(database, root, sent, subscribers)
        if whole is not None:
            whole.silent = silent
        return [whole]
    return [*(shares_of(database, leaf, [leaf], subscribers) for leaf in sent), *silent]


def silent_shares(database: Database, leaf: Table, subscribers: Sequence[Subscriber]) -> Shares | None:
    """Returns an unlogged or foreign partition below a published table: nobody gets its rows."""
    if leaf["is_publishable"] or not is_below_published(database, leaf):
        return None
    return Shares(leaf, {}, {it.name: [] for it in subscribers}, [leaf], subscribers=subscribers,
                  names=names_of(database, leaf))


def names_of(database: Database, table: Table) -> frozenset[str]:
    """Returns the full names of a table and of those above it."""
    listed = [table, *(database.by_oid[oid] for oid in table["ancestors"] if oid in database.by_oid)]
    return frozenset(map(full_name, listed))


def leave_out(database: Database, tables: Sequence[Shares], omitted: Mapping[str, frozenset[str]]) -> None:
    """Sets the operations that tables leave out on purpose, by the full names of tables."""
    for shares in tables:
        shares.omitted = frozenset().union(*(omitted[it] for it in shares.names if it in omitted))
        set_operations(database, shares)


def is_below_published(database: Database, leaf: Table) -> bool:
    return any(database.ancestors_in(publication, leaf) for publication in database.publications.values())


def shares_of(
        database: Database, table: Table, leaves: list[Table], subscribers: Sequence[Subscriber]) -> Shares | None:
    """Returns who takes which publications of a table, or None if none carries it.

    Of a partition's rows, a subscriber gets those that are sent as the topmost table that any of its publications
    names; its other publications do not count then.
    """
    ways = {}
    for name, publication in database.publications.items():
        oid = database.published_as(publication, leaves[0])
        if oid is not None:
            ways[name] = oid
    if not ways:
        return None
    filters = {name: database.filter_of(database.publications[name], oid) for name, oid in ways.items()}
    shares = Shares(table, filters, {}, leaves, subscribers=subscribers, names=names_of(database, table))
    levels = [leaves[0]["oid"], *leaves[0]["ancestors"]]
    for subscriber in subscribers:
        taken = [it for it in dict.fromkeys(subscriber.publications) if it in ways]
        top = max((levels.index(ways[it]) for it in taken), default=0)
        add_stream(database, shares, subscriber.name, taken, [it for it in taken if levels.index(ways[it]) == top])
        shares.sent_as.update(ways[it] for it in taken if levels.index(ways[it]) == top)
    set_operations(database, shares)
    return shares


def add_stream(database: Database, shares: Shares, name: str, taken: list[str], stream: list[str]) -> None:
    """Adds what one subscriber is sent of a table: through `stream`, while all that it takes of the table is
    `taken`."""
    shares.streams[name] = stream
    shares.takers[name] = [it for it in stream if "insert" in database.publications[it]["operations"]]
    below = [it for it in taken if it not in stream and "insert" in database.publications[it]["operations"]]
    if stream and below and not shares.takers[name]:
        # The server then sends each inserted row, without any filter.
        shares.undecided.append(
            f"subscriber {name} takes publication {below[0]} of the partition and publication {stream[0]} of a table "
            f"above it, and only the first publishes insert")


def set_operations(database: Database, shares: Shares) -> None:
    """Sets the operations with which pgshard is given each publication: all of them, if each subscriber that takes it
    gets the others from publications with the same filters."""
    for name in shares.filters:
        of_takers = [it for it in shares.streams.values() if name in it]
        is_complete = bool(of_takers) and all(is_whole(database, shares, it) for it in of_takers)
        shares.operations[name] = OPERATIONS if is_complete else database.publications[name]["operations"]


def is_whole(database: Database, shares: Shares, stream: list[str]) -> bool:
    """Returns whether publications that a subscriber takes together publish all operations, each under the same
    filters."""
    return next(broken_operations(database, shares, stream), None) is None


def broken_operations(database: Database, shares: Shares, stream: list[str]) -> Iterator[str]:
    """Yields the operations that some publications do not publish, or publish under other filters than INSERT, except
    those that are left out on purpose."""
    inserted = filters_for(database, shares, stream, "insert")
    for operation in OPERATIONS:
        if operation in shares.omitted:
            continue
        found = filters_for(database, shares, stream, operation)
        # No filter applies to TRUNCATE.
        if not found or operation != "truncate" and found != inserted:
            yield operation


def filters_for(database: Database, shares: Shares, stream: list[str], operation: str) -> Filters:
    """Returns the filters of an operation, one of which a row has to pass, as one set; a publication without a filter
    is enough."""
    having = [it for it in stream if operation in database.publications[it]["operations"]]
    found = frozenset(shares.filters[it] for it in having)
    return frozenset([None]) if None in found else found
