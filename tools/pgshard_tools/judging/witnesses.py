"""Rows about which the server is asked if there is neither a proof nor a row of pgshard: those with values that filters
and constraints name, with their neighbours, with nulls, and random ones."""

import itertools
import json
import random
import zlib
from collections.abc import Sequence
from dataclasses import dataclass, field

from pgshard_tools.judging import evaluating, rows, values
from pgshard_tools.judging.database import Column, full_name
from pgshard_tools.judging.evaluating import Questions
from pgshard_tools.judging.rows import Confirmed, Row
from pgshard_tools.judging.session import Session
from pgshard_tools.judging.shares import Takers
from pgshard_tools.judging.trials import Read

# The most rows about which the server is asked, in batches.
MOST_ROWS = 600
LOT = 200
MOST_VALUES = 120
# The most questions that are asked to find out which values a type accepts.
MOST_QUESTIONS = 60
# The most rows for which a filter fails that are reported.
MOST_FAILING = 3


@dataclass
class Found:
    """A row that shows a fault, with the server's answer about it, and rows for which a filter fails, in words."""

    row: Row | None = None
    confirmed: Confirmed = field(default_factory=lambda: Confirmed(False, []))
    failing: list[str] = field(default_factory=list)


def search(session: Session, read: Read, takers: Takers, purpose: str | None) -> Found:
    """Asks the server about rows until one shows a fault."""
    questions, found = evaluating.questions_of(read), Found()
    listed = rows_of(session, read, questions)
    for begin in range(0, len(listed), LOT):
        lot = listed[begin:begin + LOT]
        for row, outcome in zip(lot, evaluating.outcomes(session, questions, lot)):
            if not outcome.is_accepted:
                continue
            if outcome.is_failing:
                add_failing(found, read, row)
            elif rows.is_fault(evaluating.takers_of(takers, outcome), purpose):
                # The server is asked again, with the columns that no filter names.
                confirmed = evaluating.confirmed(session, read, takers, row)
                if confirmed.is_accepted and rows.is_fault(confirmed.takers, purpose):
                    found.row, found.confirmed = row, confirmed
                    return found
    return found


def add_failing(found: Found, read: Read, row: Row) -> None:
    """Adds a row for which a filter fails, in words."""
    if len(found.failing) < MOST_FAILING:
        named = [f"{it} = {row[it]}" for it in rows.columns_that_matter(read)]
        found.failing.append(f"a row with {', '.join(named)} stops the replication: a filter fails")


def rows_of(session: Session, read: Read, questions: Questions) -> list[Row]:
    """Returns rows of the columns that filters and constraints name; the other columns have plain values."""
    chance = chance_of(read)
    choices = choices_of(session, questions, chance)
    if not all(choices.values()):
        return []
    plain = {it["name"]: rows.values_of(it, {})[0] for it in read.shares.table["columns"]}
    return [plain | dict(zip(choices, combined)) for combined in combinations(list(choices.values()), chance)]


def chance_of(read: Read) -> random.Random:
    """Returns a generator that gives the same rows for the same table."""
    return random.Random(zlib.crc32(full_name(read.shares.table).encode("utf-8", "surrogateescape")))


def choices_of(session: Session, questions: Questions, chance: random.Random) -> dict[str, list[str]]:
    """Returns values for each column that filters and constraints name."""
    texts = [*questions.filters.values(), *questions.checks, *(it["generation"] for it in questions.computed)]
    constants = values.constants_of(texts)
    return {it["name"]: taken_values(session, it, values.values_of(it, constants, chance)) for it in questions.columns}


def combinations(choices: Sequence[Sequence[str]], chance: random.Random) -> list[tuple[str, ...]]:
    """Returns all combinations of some values, or, if these are too many, each value with random ones of the others."""
    count = 1
    for listed in choices:
        count *= len(listed)
    if count <= MOST_ROWS:
        return list(itertools.product(*choices))
    found = {tuple(chance.choice(it) for it in choices): True for _ in range(MOST_ROWS // 2)}
    for place, listed in enumerate(choices):
        for value in listed:
            others = [chance.choice(it) for it in choices]
            found[(*others[:place], value, *others[place + 1:])] = True
    return list(found)[:MOST_ROWS + MOST_ROWS // 2]


def taken_values(session: Session, column: Column, listed: Sequence[str]) -> list[str]:
    """Returns the values that the type accepts, as the server prints them, as constants."""
    lots, asked = [list(listed)], 0
    found: dict[str, bool] = {}
    while lots and asked < MOST_QUESTIONS:
        lot = lots.pop(0)
        asked += 1
        answer = session.ask(
            f"SELECT json_agg(v::text) FROM (VALUES {', '.join(f'({value_of(column, it)})' for it in lot)}) AS t (v)")
        if answer:
            found |= {values.constant(column, it): True for it in json.loads(answer)}
        elif len(lot) > 1:
            lots += [lot[:len(lot) // 2], lot[len(lot) // 2:]]
    return list(found)[:MOST_VALUES]


def value_of(column: Column, value: str) -> str:
    """Returns a value of the column's type."""
    return f"({value})::{column['written']}"
