"""Judges all tables, each within its time limit."""

from collections.abc import Mapping, Sequence

from pgshard_tools.judging import counting, database, explaining, faulty_regions, pictures, verdicts
from pgshard_tools.judging.faults import BAD_COMMAND, NOT_READ, NOT_SOUND, SOUND, Fault
from pgshard_tools.judging.options import Options
from pgshard_tools.judging.report import Regions
from pgshard_tools.judging.session import Session
from pgshard_tools.judging.shares import Shares
from pgshard_tools.judging.timing import TimeIsUp, time_limit
from pgshard_tools.judging.verdicts import Verdict


def judged_all(
        db: database.Database, tables: Sequence[Shares], purposes: Mapping[str, str], session: Session,
        options: Options) -> tuple[list[Verdict], Regions]:
    """Returns the verdict of each table and, with --explain, who gets which rows of the sound ones."""
    found: list[Verdict] = []
    regions: Regions = {}
    # The server's information about calls is read before the first table's time begins.
    session.meanings(db)
    for table in tables:
        found.append(judged_in_time(db, table, purposes.get(database.full_name(table.table)), session, options))
        if options.explain and found[-1].answer == verdicts.SOUND:
            explain(found[-1], regions, options)
        add_regions(db, found[-1], purposes.get(found[-1].table), session, options)
        if options.count:
            count(table, found[-1], purposes.get(found[-1].table), session, options)
    return found, regions


def count(table: Shares, verdict: Verdict, purpose: str | None, session: Session, options: Options) -> None:
    """Adds how many rows go to nobody and to several."""
    faults = verdict.faulty.listed if verdict.faulty is not None else []
    cells = verdict.map.cells if verdict.map is not None else []
    is_guarded = explaining.guarded_part(verdict) is not None
    conditions = [] if is_guarded else [*(it.condition for it in faults), *(it.condition for it in cells)]
    verdict.counts = counting.counts_of(session, table, conditions, purpose, options.rows, options.seconds)


def add_regions(
        db: database.Database, verdict: Verdict, purpose: str | None, session: Session, options: Options) -> None:
    """Adds all regions that go to nobody or to several, and a map for a page, if they are found in time."""
    is_mapped = options.html is not None and verdict.answer in (verdicts.SOUND, verdicts.REFUSED, verdicts.NOT_SOUND)
    is_faulty = verdict.answer == verdicts.NOT_SOUND
    read = verdict.read
    if read is None or not faulty_regions.is_of(read, verdict.table) or not (is_mapped or is_faulty):
        return
    guarded = explaining.guarded_part(verdict)
    if guarded is not None and is_faulty:
        verdict.remarks.append(f"a query for these regions may fail, since {guarded} fails at some rows")
    try:
        with time_limit(options.seconds):
            division = faulty_regions.division_of(db, read, read.shares.takers, purpose, session)
            if is_faulty:
                verdict.faulty = faulty_regions.faulty_regions(division, read, purpose, session)
            if is_mapped:
                verdict.map = pictures.map_of(division)
    except TimeIsUp:
        session.stop()
        verdict.remarks.append(f"listing its regions takes over {options.seconds:g} seconds; raise --seconds")


def judged_in_time(
        db: database.Database, table: Shares, purpose: str | None, session: Session, options: Options) -> Verdict:
    """Returns the verdict on a table, which is not decided if it takes too long."""
    try:
        with time_limit(options.seconds):
            return verdicts.judged(db, table, purpose, session)
    except TimeIsUp:
        session.stop()
        return Verdict(database.full_name(table.table), verdicts.NOT_DECIDED, [
            f"it takes over {options.seconds:g} seconds; raise --seconds"])


def explain(verdict: Verdict, regions: Regions, options: Options) -> None:
    """Adds who gets which rows of a table, if that is found in time."""
    try:
        with time_limit(options.seconds):
            guarded = explaining.guarded_part(verdict)
            if guarded is not None:
                verdict.remarks.append(f"who gets which rows is not explained, since {guarded} fails at some rows")
                return
            regions[verdict.table] = explaining.regions(verdict)
    except TimeIsUp:
        verdict.remarks.append(f"explaining it takes over {options.seconds:g} seconds; raise --seconds")


def purposes_of(options: Options, tables: Sequence[Shares]) -> dict[str, str]:
    """Returns what is published to all, or in part, on purpose, by the full names of tables."""
    names = {database.full_name(it.table) for it in tables}
    found = {}
    for purpose, words in ("copied", options.copied), ("partial", options.partial):
        for word in words:
            name = word if word in names else f"public.{word}"
            if name not in names:
                raise Fault(BAD_COMMAND, f"--{purpose} {word}: no such table is published")
            found[name] = purpose
    return found


def status_of(found: Sequence[Verdict], is_strict: bool) -> int:
    """Returns the exit status. If nothing is published, that is not sound either."""
    answers = {it.answer for it in found}
    if not found or answers & {verdicts.NOT_SOUND, verdicts.NOT_DECIDED, verdicts.REFUSED}:
        return NOT_SOUND
    if is_strict and any(it.failing for it in found):
        return NOT_SOUND
    return NOT_READ if verdicts.NOT_READ in answers else SOUND
