"""Asks the server about rows: whether it accepts them, the values of their generated columns, and who gets them."""

import json
from collections.abc import Iterator, Sequence
from dataclasses import dataclass, field

from pgshard_tools.judging.constraints import constraint_texts, is_of_server, unvalidated_checks
from pgshard_tools.judging.database import Column
from pgshard_tools.judging.parser import columns_of, is_parsed
from pgshard_tools.judging.rows import Confirmed, Row, is_computed
from pgshard_tools.judging.server_types import collation_sql, is_plain, length_limit
from pgshard_tools.judging.session import Session
from pgshard_tools.judging.shares import Takers
from pgshard_tools.judging.trials import Read

# How often the server is asked again about smaller batches of rows, because it failed for some of them.
MOST_QUESTIONS = 40
NUMBER = '"the row\'s number"'


@dataclass
class Outcome:
    """What the server does with a row. If it accepts the row and a filter fails for it, the stream ends there."""

    is_accepted: bool = False
    is_failing: bool = False
    passed: set[str] = field(default_factory=set)
    generated: dict[str, str] = field(default_factory=dict)


@dataclass
class Questions:
    """What the server is asked about each row of a table, and about which columns."""

    columns: list[Column]
    computed: list[Column]
    checks: list[str]
    filters: dict[str, str]
    asked: int = 0


def confirmed(session: Session, read: Read, takers: Takers, row: Row) -> Confirmed:
    """Returns whether the constraints accept a row, and which takers get it, evaluated by the server itself.

    A row counts as refused if the server cannot tell, for example because a type or a domain refuses a value, or if a
    filter or constraint names a generated column whose expression is not read, because the column's value is unknown.
    """
    questions = questions_of(read)
    if any(column["generated"] for column in questions.columns):
        return Confirmed(False, [])
    outcome = outcomes(session, questions, [row])[0]
    if not outcome.is_accepted or outcome.is_failing:
        return Confirmed(False, [])
    named = {it["name"] for it in questions.columns}
    others = [it for it in read.shares.table["columns"] if it["name"] not in named and not is_plain(it)]
    unfit = tuple(it["name"] for it in others if not is_value(session, it, row[it["name"]]))
    refused_by = tuple(
        name for name, text in unvalidated_checks(read.shares).items() if refuses(session, read, row, text))
    return Confirmed(True, takers_of(takers, outcome), unfit, refused_by, outcome.generated)


def refuses(session: Session, read: Read, row: Row, check: str) -> bool:
    """Returns whether a CHECK may refuse a row. Functions of the database are never called here."""
    if not is_of_server(check, [read.shares.table, *read.shares.leaves]):
        return True
    questions = Questions(*columns_named(read, [check]), [], {})
    answer = session.ask(query_of(questions, [row], [f"({check}) IS FALSE"]))
    return not answer or bool(json.loads(answer)[0][0])


def takers_of(takers: Takers, outcome: Outcome) -> list[str]:
    """Returns the subscribers that get a row."""
    return [name for name, names in takers.items() if outcome.passed & set(names)]


def is_value(session: Session, column: Column, literal: str) -> bool:
    """Returns whether a type of the database accepts a value. A domain may refuse NULL."""
    if literal == "DEFAULT" or literal == "NULL" and column["kind"] != "d":
        return True
    return session.ask(f"SELECT ({literal})::{column['written']} IS NULL") != ""


def questions_of(read: Read) -> Questions:
    """Returns the filters of the subscribers, the constraints that may be evaluated, and the columns that these
    name."""
    filters = {name: text or "true" for name, text in read.shares.filters.items() if name in read.filters}
    checks = checks_of(read)
    return Questions(*columns_named(read, [*filters.values(), *checks]), checks, filters)


def columns_named(read: Read, texts: Sequence[str]) -> tuple[list[Column], list[Column]]:
    """Returns the columns that expressions name, with those that the server computes separately. An expression that is
    not read may name any column."""
    is_known = all(is_parsed(it) for it in texts)
    named = {name for text in texts for name in columns_of(text)} if is_known else {
        it["name"] for it in read.shares.table["columns"]}
    computed = [it for it in read.shares.table["columns"] if it["name"] in named and is_computed(it)]
    named |= {name for it in computed for name in columns_of(it["generation"])}
    listed = [it for it in read.shares.table["columns"] if it["name"] in named]
    return [it for it in listed if it not in computed], computed


def checks_of(read: Read) -> list[str]:
    """Returns the constraints that the server is asked to evaluate. Those with functions of the database are left out,
    since these are never called here."""
    texts = dict(constraint_texts(read.shares))
    unread = [it.text for it in read.unread.values() if it.is_built_in]
    return [*(texts[name] for name in read.constraints if name in texts), *unread]


def outcomes(session: Session, questions: Questions, listed: Sequence[Row]) -> list[Outcome]:
    """Returns what the server does with each row. Rows for which it fails are found by bisection."""
    found = [Outcome() for _ in listed]
    taken = []
    checks = [f"({text}) IS NOT FALSE" for text in [*questions.checks, *lengths_of(questions.computed)]]
    values = [f"({it['quoted']})::text" for it in questions.computed]
    for place, answer in asked(session, questions, listed, range(len(listed)), [*checks, *values]):
        if answer is not None and all(answer[:len(checks)]):
            computed = list(zip(questions.computed, answer[len(checks):]))
            found[place].generated = {it["name"]: "NULL" if value is None else str(value) for it, value in computed}
            taken += [place] if not any(value is None and it["not_null"] for it, value in computed) else []
    filters = [f"({text}) IS TRUE" for text in questions.filters.values()]
    # Nothing is known about a row about which the server was not asked.
    for place in taken:
        found[place].is_accepted = False
    for place, answer in asked(session, questions, listed, taken, filters):
        found[place].is_accepted = True
        if answer is None:
            found[place].is_failing = True
        else:
            found[place].passed = {name for name, value in zip(questions.filters, answer) if value}
    return found


def lengths_of(computed: Sequence[Column]) -> list[str]:
    """Returns the condition that a computed text fits its column: only blanks may exceed it."""
    limits = [(it, length_limit(it["type"], it["modifier"])) for it in computed]
    return [f"rtrim(substr(({it['generation']})::text, {limit + 1}), ' ') = ''"
            for it, limit in limits if limit is not None]


def asked(
        session: Session, questions: Questions, listed: Sequence[Row], places: Sequence[int], texts: Sequence[str]
) -> Iterator[tuple[int, list[object] | None]]:
    """Yields the server's answers about some of the rows, or None for a row for which it fails. Too many failures end
    the search."""
    lots = [list(places)] if places else []
    while lots and questions.asked < MOST_QUESTIONS:
        lot = lots.pop()
        questions.asked += 1
        answer = session.ask(query_of(questions, [listed[it] for it in lot], texts))
        if answer:
            yield from zip(lot, json.loads(answer))
        elif len(lot) == 1:
            yield lot[0], None
        else:
            lots += [lot[len(lot) // 2:], lot[:len(lot) // 2]]


def query_of(questions: Questions, listed: Sequence[Row], texts: Sequence[str]) -> str:
    """Returns a query for the values of some expressions for each row. OFFSET keeps the server from inlining the rows
    as constants, which would hide expressions that it cannot prepare."""
    names = [NUMBER, *(it["quoted"] for it in questions.columns)]
    values = ", ".join(
        f"({', '.join([str(number), *(value_text(it, row[it['name']]) for it in questions.columns)])})"
        for number, row in enumerate(listed))
    computed = "".join(f", {value_text(it, it['generation'])} AS {it['quoted']}" for it in questions.computed)
    return (f"SELECT json_agg(json_build_array({', '.join(texts)}) ORDER BY {NUMBER}) FROM (SELECT *{computed} "
            f"FROM (VALUES {values}) AS the_values ({', '.join(names)}) OFFSET 0) AS the_rows")


def value_text(column: Column, literal: str) -> str:
    """Returns a value of a column. Without parentheses, the least number would be cast before its minus sign is
    applied."""
    collation = f" COLLATE {collation_sql(column['collation'])}" if column["collation"] not in (None, "default") else ""
    value = "NULL" if literal == "DEFAULT" else literal
    return f"({value})::{column['written']}{collation}"
