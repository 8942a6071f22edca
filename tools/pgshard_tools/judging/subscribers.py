"""Who takes which publications, according to subscribers' databases, psql's variable, or the connected walsenders."""

import json
import os
import re
from collections.abc import Iterator, Mapping, Sequence
from typing import Any

from pgshard_tools.judging import walsenders
from pgshard_tools.judging.database import FOLDER, Database, Subscriber, run_psql
from pgshard_tools.judging.faults import BAD_COMMAND, NOT_READ, Fault

WORD = re.compile(r'((?:[^\s="]|"(?:[^"]|"")*")*)(?:=((?:[^\s"]|"(?:[^"]|"")*")*))?')
PART = re.compile(r'(?:[^,"]|"(?:[^"]|"")*")+')
VARIABLE = "; the form is -v subscriptions='london=europe tokyo=asia,africa'"
# A subscriber's copy of a table temporarily has a slot of its own.
COPYING = re.compile(r"pg_\d+_sync_\d+_\d+")

EACH = "each publication counts as a subscriber of its own; -v subscriptions='..' names others"


def subscribers_of(
        database: Database, named: str | None, connections: Sequence[str]) -> tuple[list[Subscriber], str]:
    """Returns the subscribers, and a line that says how they are known."""
    if connections:
        return from_databases(database, connections), "the subscribers are those of the databases given by --subscriber"
    if named is not None:
        return from_variable(database, named), "the subscribers are those of -v subscriptions"
    connected = from_walsenders(database)
    if connected:
        return connected, connected_words(database, connected)
    return [Subscriber(name, [name]) for name in database.publications], EACH


def connected_words(database: Database, connected: Sequence[Subscriber]) -> str:
    """Returns the remark that these are not all, if other slots wait for a subscriber."""
    names = {it.name for it in connected}
    waiting = [it for it in database.slots if it not in names and not COPYING.fullmatch(it)]
    others = f"; nobody is connected to slot {', '.join(waiting)}, so its subscriber does not count" if waiting else ""
    return f"the subscribers are those that are connected now{others}"


def unquoted(name: str) -> str:
    """Returns a name in the variable as it is stored."""
    return name[1:-1].replace('""', '"') if re.fullmatch(r'"(?:[^"]|"")*"', name, re.S) else name


def from_variable(database: Database, text: str) -> list[Subscriber]:
    """Returns the subscribers in the variable, all of whose publications have to exist."""
    return [known(database, Subscriber(name, names), VARIABLE) for name, names in named_in(text).items()]


def from_intent(database: Database, path: str, listed: Mapping[str, Sequence[str]]) -> tuple[list[Subscriber], str]:
    """Returns the subscribers that a file of --intent names, and a line that says so."""
    found = [known(database, Subscriber(name, list(names))) for name, names in listed.items()]
    return found, f"the subscribers are those of {path}"


def from_variable_where_there(database: Database, text: str) -> list[Subscriber]:
    """Returns the same, without publications that do not exist."""
    return where_there(database, named_in(text))


def where_there(database: Database, listed: Mapping[str, Sequence[str]]) -> list[Subscriber]:
    """Returns subscribers without publications that do not exist."""
    return [Subscriber(name, [it for it in names if it in database.publications]) for name, names in listed.items()]


def named_in(text: str) -> dict[str, list[str]]:
    """Returns the words of the variable: name=publication,publication or just a publication's name."""
    found: dict[str, list[str]] = {}
    for name, publications in WORD.findall(text):
        if name or publications:
            names = [unquoted(it) for it in PART.findall(publications or name)]
            found.setdefault(unquoted(name), []).extend(names)
    return found


def known(database: Database, subscriber: Subscriber, form: str = "") -> Subscriber:
    """Returns the same, if all of its publications exist. The fault ends with the form in which they are listed."""
    for name in subscriber.publications:
        if name not in database.publications:
            takes = f"subscription {subscriber.name} takes publication {name}, which does not exist"
            raise Fault(NOT_READ, f"{takes}{form}")
    return subscriber


def from_walsenders(database: Database) -> list[Subscriber]:
    """Returns what the connected subscribers requested, if the role may see it for all of them: those that it cannot
    see may get the same rows."""
    found: list[Subscriber] = []
    commands = {str(it["slot"]): it["query"] for it in database.walsenders if not COPYING.fullmatch(str(it["slot"]))}
    if all(query is None for query in commands.values()):
        return found
    for slot, query in commands.items():
        names = walsenders.publication_names(query) if query is not None else None
        if names is None:
            why = "is not read, or cut off by track_activity_query_size"
            if query is None:
                why = "is hidden from this role"
            raise Fault(NOT_READ, f"what the subscriber of slot {slot} asked for {why}; -v subscriptions='..' says who "
                                  "subscribes")
        found.append(with_missing(database, slot, names))
    return found


def with_missing(database: Database, name: str, publications: Sequence[str]) -> Subscriber:
    """Returns a subscriber, some of whose publications may not exist."""
    missing = [it for it in publications if it not in database.publications]
    return Subscriber(name, [it for it in publications if it not in missing], missing=missing)


def from_databases(database: Database, connections: Sequence[str]) -> list[Subscriber]:
    """Returns the subscriptions of subscribers' databases that have a slot here, or whose publications all exist
    here."""
    found = []
    for connection in connections:
        for row in subscriptions_at(connection):
            names, slot = row["publications"], row["slot"]
            is_here = all(it in database.publications for it in names)
            if slot not in database.slots and not is_here:
                continue
            subscriber = with_missing(database, row["name"], names)
            subscriber.slot = slot
            subscriber.remarks.extend(remarks(database, row))
            found.append(subscriber)
    if not found:
        raise Fault(NOT_READ, "none of the databases given by --subscriber has a subscription to this one")
    return with_unlike_names(found)


def remarks(database: Database, row: dict[str, Any]) -> Iterator[str]:
    """Yields problems of a subscription."""
    if not row["enabled"]:
        yield f"subscription {row['name']} is disabled"
    if row["slot"] is None:
        yield f"subscription {row['name']} has no slot"
    elif row["slot"] not in database.slots:
        yield f"subscription {row['name']} has slot {row['slot']}, which is missing at the publisher"
    for name in row["publications"]:
        if name not in database.publications:
            yield f"subscription {row['name']} takes publication {name}, which does not exist"


def subscriptions_at(connection: str) -> list[dict[str, Any]]:
    """Returns the subscriptions of a database."""
    if "=" not in connection and not connection.startswith(("postgres://", "postgresql://")):
        raise Fault(
            BAD_COMMAND, f"--subscriber needs a connection string such as 'host=london dbname=shop', not {connection}")
    script = os.path.join(FOLDER, "subscriptions.sql")
    found: list[dict[str, Any]] = json.loads(run_psql(["-d", connection], script=script))
    return found


def with_unlike_names(found: list[Subscriber]) -> list[Subscriber]:
    """Makes names unique, since subscriptions of two databases may have the same name."""
    counts: dict[str, int] = {}
    for subscriber in found:
        counts[subscriber.name] = counts.get(subscriber.name, 0) + 1
        if counts[subscriber.name] > 1:
            subscriber.name = f"{subscriber.name} {counts[subscriber.name]}"
    return found
