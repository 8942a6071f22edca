"""Finds rows for which a filter fails: the server accepts such a row, and then ends the replication of every subscriber
to the publication."""

import itertools
from dataclasses import replace
from typing import Iterator

from pgshard_tools.judging import bounding, catalogs, evaluating, program, rows, trials
from pgshard_tools.judging.arithmetic import Failure, numbers_of
from pgshard_tools.judging.database import Column, Database
from pgshard_tools.judging.formulas import Compare, leaves_of, negation, tested
from pgshard_tools.judging.parser import shown
from pgshard_tools.judging.points import Point
from pgshard_tools.judging.rows import Row
from pgshard_tools.judging.server_types import INTEGERS
from pgshard_tools.judging.session import Session
from pgshard_tools.judging.shares import filters_for
from pgshard_tools.judging.trials import Read

# Operations with filters, besides INSERT.
CHANGES = ("update", "delete")
# The most rows at the limits of types that are tried.
MOST_CORNERS = 400
EDGES = {"numeric": ["9e131071", "-9e131071", "0", "1e-16383"], "float8": ["1.7e308", "-1.7e308", "5e-324", "0"],
         "float4": ["3.4e38", "-3.4e38", "1e-45", "0"]}


def words_of(db: Database, read: Read, session: Session) -> list[str]:
    """Returns the messages: rows that stop the replication, and filters for which it is not known whether there are
    such rows."""
    stopped: dict[str, list[str]] = {}
    unknown: dict[str, bool] = {}
    for name, failures in read.failures.items():
        takers = [it for it, names in read.shares.takers.items() if name in names]
        row = next((it for failure in failures for it in rows_of(db, read, name, failure, session)), None)
        if row is not None:
            columns = [it for it in rows.columns_that_matter(read) if it in read.named[name]]
            listed = ", ".join(f"{it} = {row[it]}" for it in columns)
            stopped.setdefault(listed, []).extend(takers)
            continue
        for failure in failures:
            if not is_nowhere(db, read, name, failure, session):
                unknown[f"judge does not know whether a row makes the filter of publication {name} fail, since it has "
                        f"{shown(failure.form)}"] = True
    found = [f"a row with {listed} stops the replication of {', '.join(dict.fromkeys(names))}: the filter fails"
             for listed, names in stopped.items()]
    return [*found, *unknown]


def unprepared(db: Database, read: Read, session: Session) -> Iterator[str]:
    """Yields filters of publications without INSERT that the server cannot even prepare, which it does before it sends
    the first row. A filter of a publication with INSERT that fails for each row is not read."""
    for subscriber, stream in read.shares.streams.items():
        for name in stream:
            text = read.shares.filters[name]
            filtered = [it for it in CHANGES if it in db.publications[name]["operations"]
                        and None not in filters_for(db, read.shares, stream, it)]
            if text is not None and filtered and name not in read.shares.takers[subscriber] and not is_prepared(
                    read, text, session):
                yield f"each row stops the replication of {subscriber}: the filter of publication {name} fails"


def is_prepared(read: Read, text: str, session: Session) -> bool:
    """Returns whether the server can evaluate a filter when all columns are NULL."""
    questions = evaluating.Questions(*evaluating.columns_named(read, [text]), [], {})
    row = {it["name"]: "NULL" for it in questions.columns}
    return session.ask(evaluating.query_of(questions, [row], [f"({text}) IS TRUE"])) != ""


def rows_of(db: Database, read: Read, name: str, failure: Failure, session: Session) -> Iterator[Row]:
    """Yields rows that the server accepts and for which it then fails."""
    questions = evaluating.questions_of(read)
    questions.filters = {name: questions.filters[name]}
    listed = list(corners(read, failure) if failure.where is None else found_rows(db, read, name, failure, session))
    for row, outcome in zip(listed, evaluating.outcomes(session, questions, listed)):
        if outcome.is_accepted and outcome.is_failing:
            yield row


def trial_of(db: Database, read: Read, name: str, failure: Failure, session: Session) -> trials.Trial | None:
    """Returns a sharding in which nobody gets the rows for which the filter fails, and one subscriber gets all others:
    it is sound exactly if there are no such rows."""
    if failure.where is None:
        return None
    never = replace(read, filters={name: negation(tested("TRUE", failure.where))})
    takers = {"one": [name]}
    trial = trials.trial_of(db, never, takers, None, True, read.constraints, session.sorted_texts)
    answer = program.run("make", trial.catalog)
    if isinstance(answer, program.Unreadable):
        return None
    trial.made, _ = program.made_of(
        answer, 0, f"{read.shares.table['schema']}.{read.shares.table['name']}",
        catalogs.subscriber_names(takers, None))
    return trial


def found_rows(db: Database, read: Read, name: str, failure: Failure, session: Session) -> Iterator[Row]:
    trial = trial_of(db, read, name, failure, session)
    if trial is not None and trial.made.row is not None:
        yield from rows.candidates(read, trial)


def is_nowhere(db: Database, read: Read, name: str, failure: Failure, session: Session) -> bool:
    """Returns whether the filter fails for no row that the server accepts."""
    if failure.where is None:
        constraints = list(read.constraints.values())
        return failure.is_nowhere(lambda subject: bounding.bounds_of(constraints, subject))
    trial = trial_of(db, read, name, failure, session)
    return trial is not None and trial.made.certificate is not None


def corners(read: Read, failure: Failure) -> Iterator[Row]:
    """Yields rows at the limits of the types, and at the limits of what constraints allow."""
    columns = read.shares.table["columns"]
    plain = {it["name"]: rows.values_of(it, {})[0] for it in columns}
    named = [it for it in columns if it["name"] in failure.columns]
    choices = [ends_of(read, it) for it in named]
    for values in itertools.islice(itertools.product(*choices), MOST_CORNERS):
        yield plain | {it["name"]: value for it, value in zip(named, values)}


def ends_of(read: Read, column: Column) -> list[str]:
    if column["type"] not in INTEGERS:
        return EDGES.get(column["type"], [rows.values_of(column, {})[0]])
    ends = [*numbers_of(column["type"]), 0, 1, -1]
    for formula in read.constraints.values():
        for leaf in leaves_of(formula):
            if isinstance(leaf, Compare) and isinstance(leaf.value, Point) and column["name"] in leaf.subject.columns:
                number = int(leaf.value.value)
                ends += [number, number - 1, number + 1]
    return list(dict.fromkeys(str(it) for it in ends))
