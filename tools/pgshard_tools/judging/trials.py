"""The catalogs of one table that are given to pgshard, one after the other: its filters, together with more and more of
what holds for its rows."""

from collections.abc import Callable, Iterator, Sequence
from dataclasses import dataclass, field
from typing import Any

from pgshard_tools.judging import catalogs, facts, formulas, laws, samples
from pgshard_tools.judging.arithmetic import Failure
from pgshard_tools.judging.constraints import (
    BOUNDS_OF_ALL,
    bounds_of,
    constraint_texts,
    is_of_server,
    leaf_checks,
    leaf_columns,
)
from pgshard_tools.judging.database import Column, Database, Table, full_name
from pgshard_tools.judging.faults import Unread
from pgshard_tools.judging.formulas import Subject
from pgshard_tools.judging.meanings import Meanings
from pgshard_tools.judging.parser import shown
from pgshard_tools.judging.program import Made
from pgshard_tools.judging.rewriting import rewritten
from pgshard_tools.judging.shares import Shares, Takers
from pgshard_tools.judging.terms import Reader

# Sorts texts by a collation of the server.
Sort = Callable[[str, Sequence[str]], list[str]]
# A filter or a constraint as a tree, or None if there is no filter.
Formula = Any

# If there are more partitions, their bounds are not read as one constraint. The server is asked about them.
MOST_BOUNDS = 64


@dataclass
class UnreadConstraint:
    """A constraint that is not read. The server is asked about it, if it contains only the server's own functions."""

    text: str
    form: str
    is_built_in: bool


@dataclass
class Read:
    """A table's filters and constraints as formulas, and the constraints that are not read."""

    shares: Shares
    filters: dict[str, Formula]
    constraints: dict[str, Formula]
    unread: dict[str, UnreadConstraint]
    not_null: set[str]
    named: dict[str, list[str]]
    # When the server fails for a filter.
    failures: dict[str, list[Failure]] = field(default_factory=dict)
    # When subjects are NULL, if that is not exactly when a column is.
    nulls: dict[Subject, Formula] = field(default_factory=dict)
    # The values of functions of a column for its constants, by name.
    samples: dict[str, Formula] = field(default_factory=dict)


@dataclass
class Trial:
    """One catalog that is given to pgshard."""

    rewritten: Any
    filters: dict[str, Formula]
    constraints: list[Formula]
    catalog: str = ""
    made: Made = field(default_factory=lambda: Made(None, None, [], ""))


class NotRead(Exception):
    """A filter that is not read, in words."""

    def __init__(self, words: str) -> None:
        super().__init__(words)
        self.words = words


def read_of(shares: Shares, named: dict[str, list[str]], meanings: Meanings) -> Read:
    """Returns everything that is tested of a table's rows, as formulas."""
    reader = Reader(columns_of(shares), meanings, [shares.table["oid"], *shares.table["ancestors"]])
    taken = {name for names in shares.takers.values() for name in names}
    filters: dict[str, Formula] = {}
    failures = {}
    for name, text in shares.filters.items():
        if name in taken:
            filters[name], failures[name] = (None, []) if text is None else filter_of(reader, name, shares, text)
    constraints, unread = {}, {}
    for name, text in constraint_texts(shares):
        try:
            constraints[name] = bounds_formula(shares, meanings) if name == BOUNDS_OF_ALL else reader.formula(text)
        except Unread as fault:
            unread[name] = UnreadConstraint(text, fault.form, is_of_server(text, [shares.table]))
    if shares.table["kind"] != "f":
        constraints |= reader.held
    not_null = {column["name"] for column in shares.table["columns"] if column["not_null"]}
    listed = [it for it in (*filters.values(), *constraints.values()) if it is not None]
    return Read(shares, filters, constraints, unread, not_null if shares.table["kind"] != "f" else set(), named,
                failures, reader.nulls, samples.samples_of(listed, shares.table["columns"], meanings.session))


def columns_of(shares: Shares) -> list[Column]:
    """Returns the columns of a table. A generated column whose expression differs in a partition has no known
    expression."""
    found = []
    for column in shares.table["columns"]:
        expressions = {it["generation"] for leaf in shares.leaves for it in leaf["columns"]
                       if it["name"] == column["name"]}
        found.append(column if expressions <= {column["generation"]} else column | {"generation": None})
    return found


def bounds_formula(shares: Shares, meanings: Meanings) -> Formula:
    """Returns the condition that a row may be in one of several partitions. A CHECK of a partition that is not read is
    left to the server."""
    if len(shares.leaves) > MOST_BOUNDS:
        raise Unread(f"over {MOST_BOUNDS} partitions")
    return formulas.either(*(leaf_formula(shares, leaf, meanings) for leaf in shares.leaves))


def leaf_formula(shares: Shares, leaf: Table, meanings: Meanings) -> Formula:
    """Returns the same for one partition. Its columns are those of the table, by name."""
    reader = Reader(columns_of(shares), meanings, [leaf["oid"], shares.table["oid"]])
    parts = [reader.formula(bounds_of(leaf))]
    parts += [reader.formula(f"({it} IS NOT NULL)") for it in leaf_columns(shares, leaf)]
    for text in leaf_checks(shares, leaf):
        try:
            parts.append(formulas.negation(formulas.is_false(reader.formula(text))))
        except Unread:
            continue
    return formulas.both(*parts)


def unread_of(shares: Shares, named: dict[str, list[str]]) -> Read:
    """Returns the result if nothing is read, so that only the server is asked about rows."""
    taken = {name for names in shares.takers.values() for name in names}
    unread = {name: UnreadConstraint(text, text, is_of_server(text, [shares.table]))
              for name, text in constraint_texts(shares)}
    not_null = {column["name"] for column in shares.table["columns"] if column["not_null"]}
    return Read(shares, {name: None for name in shares.filters if name in taken}, {}, unread, not_null, named)


def filter_of(reader: Reader, publication: str, shares: Shares, text: str) -> tuple[Formula, list[Failure]]:
    """Returns a filter as a formula, and when the server fails for it."""
    try:
        return reader.read(text)
    except Unread as fault:
        advice = f": {fault.advice}" if fault.advice else ""
        raise NotRead(
            f"publication {publication} publishes {full_name(shares.table)} where {shown(text)}, and judge does "
            f"not read {shown(fault.form)}{advice}") from fault


def trials_of(read: Read) -> Iterator[tuple[bool, dict[str, Formula]]]:
    """Yields with or without facts, and with which constraints, to try. Rows are taken from the last trial."""
    relevant: dict[str, Formula] = {}
    names = set().union(*read.named.values(), *(columns_in(it) for it in read.filters.values() if it is not None))
    pending = dict(read.constraints)
    while True:
        found = {it for it, formula in pending.items() if names & columns_in(formula)}
        if not found:
            break
        for it in found:
            relevant[it] = pending.pop(it)
            names |= columns_in(relevant[it])
    yield False, {}
    yield True, {}
    without_bounds = {it: formula for it, formula in relevant.items() if it != BOUNDS_OF_ALL}
    for constraints in without_bounds, relevant, read.constraints:
        if constraints and (constraints is not relevant or len(without_bounds) < len(relevant)):
            if constraints is not read.constraints or len(relevant) < len(read.constraints):
                yield True, constraints
    if read.samples:
        yield True, read.constraints | read.samples


def columns_in(formula: Formula) -> set[str]:
    """Returns the columns that a formula names."""
    leaves = (leaf for leaf in formulas.leaves_of(formula) if not isinstance(leaf, formulas.Within))
    return {name for leaf in leaves for name in leaf.subject.columns}


def trial_of(
        db: Database, read: Read, takers: Takers, purpose: str | None, with_facts: bool,
        constraints: dict[str, Formula], sort: Sort) -> Trial:
    """Returns the catalog of a trial."""
    names = list(read.filters)
    listed = [read.filters[it] for it in names]
    # A constraint refuses a row exactly if it is FALSE.
    held = [formulas.negation(formulas.is_false(it)) for it in constraints.values()]
    known = laws.laws_of([*listed, *held], read.nulls) if with_facts else []
    found = rewritten([*listed, *held, *known], read.not_null, sort)
    filters = dict(zip(names, found.formulas))
    kept = found.formulas[len(names):]
    if with_facts:
        kept = [*kept, *facts.facts_of(found, read.not_null)]
    trial = Trial(found, filters, kept)
    trial.catalog = catalogs.catalog_of(read.shares, takers, purpose, trial)
    return trial
