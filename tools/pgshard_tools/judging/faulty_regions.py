"""Finds the regions of a table that is not sound: rows that reach nobody or several subscribers, each with a row that
the server accepts."""

import itertools
from collections.abc import Sequence
from dataclasses import dataclass, field, replace

from pgshard_tools.judging import divisions, evaluating, explaining, picking, rows, trials, witnesses
from pgshard_tools.judging.database import Database, full_name
from pgshard_tools.judging.divisions import Division
from pgshard_tools.judging.evaluating import Questions
from pgshard_tools.judging.explaining import Codes, Region
from pgshard_tools.judging.rows import Row
from pgshard_tools.judging.session import Session
from pgshard_tools.judging.shares import Takers
from pgshard_tools.judging.trials import Read

# The most regions of a table that are listed.
MOST_LISTED = 200
# In how many regions rows are searched for, and among how many rows, if the first candidates are not in them.
MOST_SEARCHED = 40
MOST_TRIED = 1_000
# How many rows are sent in one query, each with a condition of its own: a function call has at most 100 arguments.
LOT = 80
MOST_COMBINED = 100_000


@dataclass
class FaultyRegion:
    """Rows that go to nobody or to several subscribers, as a condition in SQL, and one of them, if the server confirms
    one.

    If the table is to be copied to all, `lacking` has the subscribers that do not get the rows.
    """

    condition: str
    takers: list[str]
    lacking: list[str]
    codes: Codes
    allowed: Codes
    row: Row | None = None


@dataclass
class FaultyRegions:
    """The regions of a table. `more` counts those that are not listed; if not all have been counted, `is_whole` is
    False."""

    listed: list[FaultyRegion] = field(default_factory=list)
    more: int = 0
    is_whole: bool = True


def division_of(db: Database, read: Read, takers: Takers, purpose: str | None, session: Session) -> Division:
    """Returns who gets which rows of a table, according to all that is known about its rows."""
    trial = trials.trial_of(
        db, read, takers, purpose, True, read.constraints | read.samples, session.sorted_texts)
    return divisions.divided(trial, takers)


def faulty_regions(
        division: Division, read: Read, purpose: str | None, session: Session) -> FaultyRegions:
    """Returns the regions of a division that show a fault, each with a row."""
    faults = [it for it in division.pieces if is_fault(it.takers, read, purpose)]
    names = read.shares.takers if purpose == "copied" else ()
    found = []
    for piece in faults:
        takers, lacking = in_order(piece.takers, read), [it for it in names if it not in piece.takers]
        found += [FaultyRegion(condition_of(codes), takers, lacking, codes, allowed)
                  for codes, allowed in division.parts(piece)]
    found.sort(key=lambda it: len(it.takers) > 0)
    regions = FaultyRegions(found[:MOST_LISTED], len(found[MOST_LISTED:]), division.is_whole)
    set_rows(regions.listed, read, session)
    regions.listed.sort(key=lambda it: it.row is None)
    return regions


def is_fault(takers: Sequence[str], read: Read, purpose: str | None) -> bool:
    """Returns whether rows that go to these subscribers show a fault."""
    if purpose == "copied":
        return len(takers) < len(read.shares.takers)
    return rows.is_fault(takers, purpose)


def in_order(takers: Sequence[str], read: Read) -> list[str]:
    """Returns subscribers in the order in which they are listed elsewhere."""
    return [it for it in read.shares.takers if it in takers]


def condition_of(codes: Codes) -> str:
    """A region as a condition in SQL."""
    return explaining.text_of(Region(codes, ""))


def set_rows(regions: Sequence[FaultyRegion], read: Read, session: Session) -> None:
    """Finds for each region a row that the server accepts and sends where the region says."""
    questions = evaluating.questions_of(read)
    tried = [(region, row) for region in regions for row in picking.rows_in(read, region.allowed)]
    confirm(tried, questions, read, session)
    missing = [it for it in regions if it.row is None]
    if missing:
        search(missing, questions, read, session)


def confirm(tried: Sequence[tuple[FaultyRegion, Row]], questions: Questions, read: Read, session: Session) -> None:
    """Asks the server about rows, each of which may be in a region."""
    for begin in range(0, len(tried), LOT):
        lot = inside([it for it in tried[begin:begin + LOT] if it[0].row is None], questions, session)
        questions.asked = 0
        for (region, row), outcome in zip(lot, evaluating.outcomes(session, questions, [row for _, row in lot])):
            takers = evaluating.takers_of(read.shares.takers, outcome)
            is_one = outcome.is_accepted and not outcome.is_failing and takers == region.takers
            if is_one and region.row is None:
                region.row = row | {name: "DEFAULT" for name in outcome.generated}


def inside(tried: Sequence[tuple[FaultyRegion, Row]], questions: Questions, session: Session
           ) -> list[tuple[FaultyRegion, Row]]:
    """Returns those that, according to the server, are in their region."""
    conditions = {it.condition: number for number, it in enumerate({it.condition: it for it, _ in tried}.values())}
    texts = [f"({it.replace('all rows', 'true')}) IS TRUE" for it in conditions]
    listed = [row for _, row in tried]
    found: list[tuple[FaultyRegion, Row]] = []
    if not tried:
        return found
    questions.asked = 0
    for place, answer in evaluating.asked(session, questions, listed, range(len(listed)), texts):
        if answer is not None and answer[conditions[tried[place][0].condition]]:
            found.append(tried[place])
    return found


def search(regions: Sequence[FaultyRegion], questions: Questions, read: Read, session: Session) -> None:
    """Searches among values near the constants for rows of regions whose expressions say nothing about their
    columns."""
    chance = witnesses.chance_of(read)
    choices = witnesses.choices_of(session, questions, chance)
    for region in regions[:MOST_SEARCHED]:
        names = list(dict.fromkeys(
            name for coded in region.codes if not coded.subject.is_column for name in coded.subject.columns
            if choices.get(name)))
        plain = next(iter(picking.rows_in(read, region.allowed)), None)
        if plain is None or not names:
            continue
        fitting = [values_in(region, name, choices[name], plain, questions, session) for name in names]
        combined = list(itertools.islice(itertools.product(*fitting), MOST_COMBINED))
        chance.shuffle(combined)
        tried = [(region, plain | dict(zip(names, its))) for its in combined[:MOST_TRIED]]
        confirm(tried, questions, read, session)


def values_in(region: FaultyRegion, name: str, listed: Sequence[str], plain: Row, questions: Questions,
              session: Session) -> list[str]:
    """Returns the values of a column that are in a region, judging by what the region says about this column only."""
    condition = condition_of({it: its for it, its in region.codes.items() if it.subject.columns == (name,)})
    own = replace(region, condition=condition)
    return [row[name] for _, row in inside([(own, plain | {name: it}) for it in listed], questions, session)]


def is_of(read: Read, table: str) -> bool:
    """Returns whether this is the table itself, and not a partition whose rows the server never sends."""
    return full_name(read.shares.table) == table
