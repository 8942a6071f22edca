"""Counts the features of the cases, to make sure that each thing occurs for which a program might give up."""

from collections import Counter

from model.catalogs import Catalog, Filter, Row, Table
from model.filters import CONNECTIVES, atoms_of, parts_of
from model.values import ENDS

from .names import BARE
from .row_values import LOWEST
from .scripts import ScriptMaker

Met = Counter[str]


def meet_catalog(met: Met, catalog: Catalog) -> None:
    """Counts the features of a catalog."""
    met["several schemas"] += len(catalog.schemas) > 1
    names = [it.name for it in (*catalog.tables, *catalog.publications, *catalog.subscriptions)]
    met["a name between quotes"] += any(not BARE.fullmatch(name) for name in names)
    met["a name of 63 bytes"] += any(len(name.encode()) == 63 for name in names)
    met["over 3 tables"] += len(catalog.tables) > 3
    met["64 tables"] += len(catalog.tables) == 64
    met["over 10 publications"] += len(catalog.publications) > 10
    for it in catalog.subscriptions:
        met["a subscriber of three publications"] += len(it.publications) == 3
        met["a subscription of over 10 publications"] += len(it.publications) > 10
        met["a subscription of 64 publications"] += len(it.publications) == 64
    met["32 subscribers"] += len(catalog.subscriptions) == 32
    for it in catalog.publications:
        met["a publication of all tables"] += it.all_tables
        met["a publication of a schema"] += len(it.schemas) > 0
        met["a publication that leaves out an operation"] += len(it.operations) < 4
        for _, filter in it.entries:
            meet_filter(met, filter if filter is not None else ("whole",))
            met["a filter of over 10 atoms"] += filter is not None and len(atoms_of(filter)) > 10
    for table in catalog.tables:
        meet_table(met, table)


def meet_table(met: Met, table: Table) -> None:
    """Counts the features of a table."""
    for column in table.columns:
        met[f"a column of {column.kind}"] += 1
    met["a table of over 5 columns"] += len(table.columns) > 5
    met["a table of 100 columns"] += len(table.columns) == 100
    met["a key of several columns"] += len(table.key) > 1
    met["identity " + (table.identity if isinstance(table.identity, str) else "USING INDEX")] += 1
    for index in table.indexes:
        nullable = any(not table.columns[at].not_null and at not in table.key for at in index.columns)
        met["a unique index of two columns"] += len(index.columns) > 1
        met["a unique index" + (" over a column that may be null" if nullable else "")] += 1


def meet_filter(met: Met, it: Filter) -> None:
    """Counts the features of a filter."""
    met["NOT of NOT of NOT of NOT"] += is_nested(it, 4)
    if it[0] in ("not", "and", "or"):
        met[f"a filter with {it[0]}"] += 1
    elif it[0] == "is":
        met[f"a filter with IS {it[1]}"] += 1
    else:
        met[f"a filter with {it[0]}{' ' + it[3] if it[0] == 'cmp' else ''}"] += 1
        met["a remainder"] += it[0] not in ("null", "const", "whole") and it[2] != 0
        met["a list of 100"] += it[0] == "in" and len(it[3]) == 100
    for part in parts_of(it) if it[0] in CONNECTIVES else ():
        meet_filter(met, part)


def is_nested(it: Filter, times: int) -> bool:
    """Returns whether a filter begins with this many NOTs."""
    return times == 0 or it[0] == "not" and is_nested(it[1], times - 1)


def meet_row(met: Met, table: Table, row: Row) -> None:
    """Counts the features of a row."""
    for column, value in zip(table.columns, row):
        if isinstance(value, str):
            met["a text with a tab"] += "\t" in value
            met["a text with control characters"] += "\x01" in value
            met["a text of 65,534 bytes or one more"] += len(value.encode()) >= 65_534
        elif column.kind in ENDS and value is not None:
            met[f"the greatest {column.kind}"] += value == ENDS[column.kind] - 1
            met[f"the least {column.kind}, or bigint that is read"] += value == max(-ENDS[column.kind], LOWEST)
        met["a null"] += value is None


def meet_script(met: Met, catalog: Catalog, made: ScriptMaker) -> None:
    """Counts the features of a script and its answers."""
    met["a clock past 60,000"] += len(made.steps) > 60_000
    met["1,000 connections lost"] += made.lines.count("lost") > 1_000
    met["100,000 steps"] += len(made.steps) == 100_000
    for step in made.steps:
        met[f"a step {step[0].upper()}"] += 1
        if step[0] == "commit":
            for command in step[1]:
                meet_command(met, catalog, command)
        met["a count past 2^32"] += step[0] in ("hear", "deliver") and step[2] > 2**32
    for line in made.lines:
        meet_line(met, line)
    for what, number in made.world.met.items():
        for most in MOST[what]:
            met[f"{what}: over {most:,}"] += number > most
    for rows in made.world.database.tables:
        met["a table of over 10,100 rows"] += len(rows.by_key) > 10_100
    log = len(made.world.database.log)
    met["a log of over 6,000 commits"] += log > 6_000
    met["a log of 100,000 commits"] += log == 100_000


# Numbers that are exceeded in some case.
MOST = {
    "bytes heard in a piece": [100, 65_600],
    "bytes delivered in a piece": [1_000, 65_600, 1_000_000],
    "changes for a subscriber in a commit": [50, 950, 999],
    "connections lost within a frame": [0],
    "connections opened at a position": [64],
    "rows of a subscriber in a view": [5, 9_999, 19_999],
}


def meet_command(met: Met, catalog: Catalog, command: tuple) -> None:
    """Counts the features of a command."""
    met[f"a command {command[0].upper()}"] += 1
    if command[0] == "truncate":
        met["a TRUNCATE of several tables"] += len(set(command[1])) > 1
        return
    table = catalog.tables[command[1]]
    met["a command on a table with a smallint column"] += any(column.kind == "smallint" for column in table.columns)
    if command[0] != "delete":
        meet_row(met, table, command[-1])


# Answers to steps that contain no number of their own.
ANSWERS = (
    "opened", "already open", "not open", "not started", "idle", "kept", "reported", "lost", "no subscriber",
    "refused EmptyTransaction", "refused TooManyCommands", "refused LogFull")
BEGINNINGS = ("commit ", "heard ", "delivered ", "sent ", "skipped ", "at ", "log ")
FAULTS = ("NoSuchRow", "DuplicateKey", "Row Width", "Row NullInNotNull", "Row WrongType", "Row OutOfRange")


def meet_line(met: Met, line: str) -> None:
    """Counts which answer a line is."""
    if line in ANSWERS:
        met[f"the answer {line}"] += 1
    elif line.startswith("refused At "):
        fault = next(fault for fault in FAULTS if f" {fault}" in line)
        met[f"the answer refused At .. {fault}"] += 1
    else:
        beginning = next((it for it in BEGINNINGS if line.startswith(it)), None)
        if beginning is not None:
            met[f"the answer {beginning}.."] += 1
