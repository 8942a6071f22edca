"""Why the server refuses an operation on a table, or ends a subscriber's stream, although the filters divide the rows.

docs/JUDGING.md lists the rules, with the sections of PostgreSQL's documentation.
"""

from collections.abc import Iterator, Sequence
from dataclasses import dataclass

from pgshard_tools.judging.database import OPERATIONS, Database, Publication, Table, full_name, names_of
from pgshard_tools.judging.parser import columns_of
from pgshard_tools.judging.shares import Shares, broken_operations

CHANGES = {"update", "delete"}
# The operations that may be left out on purpose. INSERT may not, since it decides where a row goes.
OMISSIBLE = ("update", "delete", "truncate")
# Why a table has no replica identity that the server can use, by the identity's letter.
WITHOUT_IDENTITY = {
    "d": "it has no replica identity, such as a primary key that is not deferrable",
    "n": "its replica identity is NOTHING",
    "i": "the index of its replica identity is missing or not valid"}
# The value with which a publication says that it publishes stored generated columns.
STORED = "s"


# What of a publication does not fit a replica identity.
FILTER, LIST, LIST_AND_FULL, GENERATED = "filter", "list", "list and full", "generated"
Lacking = Iterator[tuple[str, list[str]]]


@dataclass(frozen=True)
class Gap:
    """Why the server refuses changes of a table: what of a publication does not fit the replica identity, and in which
    columns."""

    changes: str
    kind: str
    columns: tuple[str, ...]

    def words(self, names: Sequence[str]) -> str:
        """Returns it in words, for publications with the same gap."""
        s, verb_s = ("s", "") if names[1:] else ("", "s")
        of = words_of_publications(names)
        columns = f"column{'s' if self.columns[1:] else ''} {words_of(self.columns)}"
        which = f"{columns}, which {'are' if self.columns[1:] else 'is'}"
        return {
            FILTER: f"the filter{s} of {of} name{verb_s} {which} not in the replica identity",
            LIST: f"the column list{s} of {of} lack{verb_s} {which} in the replica identity",
            LIST_AND_FULL: f"{of} {'have' if s else 'has'} a column list, and the replica identity is FULL",
            GENERATED: f"{of} {'do' if s else 'does'} not publish {which} generated and in the replica identity",
        }[self.kind]


def refusals_of(database: Database, shares: Shares) -> list[str]:
    """Returns all reasons, without duplicates."""
    return list(dict.fromkeys([
        *operation_refusals(database, shares), *identity_refusals(database, shares),
        *stream_refusals(database, shares), *root_refusals(database, shares)]))


def operation_refusals(database: Database, shares: Shares) -> Iterator[str]:
    """Yields the operations that subscribers are not sent, or are sent under other filters than INSERT."""
    lacking: dict[tuple[str, ...], list[str]] = {}
    differing = []
    for subscriber, stream in shares.streams.items():
        broken = list(broken_operations(database, shares, stream)) if stream else []
        sent = {it for name in stream for it in database.publications[name]["operations"]}
        missing = tuple(it for it in broken if it not in sent)
        if missing:
            lacking.setdefault(missing, []).extend(stream)
        if len(broken) > len(missing) and "insert" not in missing:
            listed = words_of([it for it in broken if it in sent])
            differing.append(f"subscriber {subscriber} takes {words_of_publications(stream)}, whose filters for "
                             f"{listed} differ from those for insert")
    for operations, names in lacking.items():
        yield missing_words(list(dict.fromkeys(names)), operations)
    yield from differing


def missing_words(publications: Sequence[str], operations: Sequence[str]) -> str:
    """Returns the message that publications leave out operations."""
    do = "do" if publications[1:] else "does"
    return f"{words_of_publications(publications)} {do} not publish {words_of(operations)}"


def words_of_publications(names: Sequence[str]) -> str:
    """Returns the names of publications in words."""
    return f"publication{'s' if names[1:] else ''} {words_of(names)}"


def words_of(names: Sequence[str]) -> str:
    """Returns names in words."""
    return " and ".join([*([", ".join(names[:-1])] if names[1:] else []), *names[-1:]])


def identity_refusals(database: Database, shares: Shares) -> Iterator[str]:
    """Yields why the server refuses updates and deletes. It checks all publications of a table, including those that
    nobody subscribes to."""
    for leaf in shares.leaves:
        where = "" if leaf is shares.table else f" of partition {full_name(leaf)}"
        yield from leaf_refusals(database, leaf, shares.omitted, where)


def leaf_refusals(database: Database, leaf: Table, omitted: frozenset[str], where: str) -> Iterator[str]:
    """Yields the same for a table that stores rows."""
    if leaf["kind"] == "p" or not leaf["is_publishable"]:
        return
    carrying = [it for it in database.publications.values()
                if (CHANGES - omitted) & set(it["operations"]) and database.published_as(it, leaf) is not None]
    columns = identity_of(leaf)
    if columns is None:
        if carrying:
            yield f"the server refuses {changes_of(carrying)}{where}, since {WITHOUT_IDENTITY[leaf['identity']]}"
        return
    found: dict[Gap, list[str]] = {}
    for publication in carrying:
        for kind, lacking in (*uncovered(database, publication, leaf, columns),
                              *ungenerated(database, publication, leaf, columns)):
            gap = Gap(changes_of([publication]), kind, tuple(lacking))
            found.setdefault(gap, []).append(publication["name"])
    for gap, names in found.items():
        yield f"the server refuses {gap.changes}{where}, since {gap.words(names)}"


def identity_of(table: Table) -> list[str] | None:
    """Returns the columns of a table's replica identity, or None if it has none that the server can use."""
    if table["identity"] == "f":
        return [column["name"] for column in table["columns"]]
    return names_of(table, table["identity_numbers"]) if table["identity_numbers"] else None


def changes_of(publications: list[Publication]) -> str:
    """Returns which changes the publications publish, in words."""
    found = {it for publication in publications for it in publication["operations"]}
    return " and ".join(f"{it}s" for it in OPERATIONS if it in CHANGES & found)


def uncovered(database: Database, publication: Publication, leaf: Table, identity: list[str]) -> Lacking:
    """Yields columns that a filter names and the identity lacks, or that the identity has and a column list lacks."""
    if publication["all"]:
        return
    ancestors = database.ancestors_in(publication, leaf)
    sent_as = ancestors[-1] if ancestors and publication["via_root"] else leaf["oid"]
    entry = database.entry(publication, sent_as)
    if entry is None:
        return
    lacking = [it for it in columns_of(entry["filter"]) if it not in identity] if entry["filter"] else []
    if lacking:
        yield FILTER, lacking
    if entry["numbers"] and leaf["identity"] == "f":
        yield LIST_AND_FULL, []
    elif entry["numbers"]:
        listed = names_of(database.by_oid[sent_as], entry["numbers"])
        if not set(identity) <= set(listed):
            yield LIST, [it for it in identity if it not in listed]


def ungenerated(database: Database, publication: Publication, leaf: Table, identity: list[str]) -> Lacking:
    """Yields generated columns of the identity that a publication does not publish. The server refuses changes then
    from PostgreSQL 18 on, in which publications say whether they publish such columns."""
    if publication["generated"] is None:
        return
    oid = database.published_as(publication, leaf)
    entry = database.entry(publication, oid) if oid is not None and not publication["all"] else None
    listed = names_of(database.by_oid[oid], entry["numbers"]) if oid and entry and entry["numbers"] else None
    lacking = []
    for column in leaf["columns"]:
        name = column["name"]
        is_published = name in listed if listed is not None else publication["generated"] == STORED
        if name in identity and column["generated"] and (column["is_virtual"] or not is_published):
            lacking.append(name)
    if lacking:
        yield GENERATED, lacking


def stream_refusals(database: Database, shares: Shares) -> Iterator[str]:
    """Yields why the server ends the stream of a subscriber."""
    for subscriber in shares.subscribers:
        stream = shares.streams.get(subscriber.name, [])
        if stream and subscriber.missing:
            yield (f"subscriber {subscriber.name} takes publication {subscriber.missing[0]}, which does not exist, so "
                   f"the server ends its replication")
        lists = {it: column_list(database, shares, it) for it in stream}
        for name, listed in lists.items():
            if listed != lists[stream[0]]:
                yield (f"subscriber {subscriber.name} takes publications {stream[0]} and {name}, whose column lists "
                       f"differ, so the server ends its replication")
                break


def column_list(database: Database, shares: Shares, name: str) -> frozenset[int] | None:
    """Returns the columns that a publication sends of a table, or None for all. A list of all columns counts as no
    list, unless the table has generated columns or had others: the server counts these, too."""
    publication = database.publications[name]
    oid = database.published_as(publication, shares.leaves[0])
    if oid is None:
        return None
    table = database.by_oid[oid]
    entry = database.entry(publication, oid) if not publication["all"] else None
    if entry is None or not entry["numbers"]:
        kept = [it for it in table["columns"] if not it["is_virtual"]]
        has_more = publication["generated"] == STORED and any(it["generated"] for it in kept)
        return frozenset(it["number"] for it in kept) if has_more else None
    numbers = frozenset(entry["numbers"])
    is_plain = not table["has_dropped"] and not any(column["generated"] for column in table["columns"])
    is_whole = is_plain and numbers == {column["number"] for column in table["columns"]}
    return None if is_whole else numbers


def root_refusals(database: Database, shares: Shares) -> Iterator[str]:
    """An unlogged partitioned table is in no subscription's list of tables."""
    for oid in sorted(shares.sent_as):
        table = database.by_oid[oid]
        if not table["is_publishable"]:
            yield (f"its rows are sent as those of {full_name(table)}, which is unlogged, so a subscription does not "
                   f"have that table, and ignores them")
