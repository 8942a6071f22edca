"""The verdict of one table: pgshard's own answer for the catalog into which its filters are rewritten."""

import re
from dataclasses import dataclass, field, replace

from pgshard_tools.judging import (
    catalogs,
    evaluating,
    failing,
    limits,
    mending,
    program,
    refusals,
    rows,
    trials,
    witnesses,
)
from pgshard_tools.judging.counting import Counts
from pgshard_tools.judging.database import OPERATIONS, Database, full_name
from pgshard_tools.judging.faults import FAILURES, Undecided
from pgshard_tools.judging.faulty_regions import FaultyRegions
from pgshard_tools.judging.parser import columns_of
from pgshard_tools.judging.pictures import Map
from pgshard_tools.judging.session import Session
from pgshard_tools.judging.shares import Shares, Takers
from pgshard_tools.judging.trials import NotRead, Read, Trial

# Remarks, to which an intention is added.
COPIED, PUBLISHED_IN_PART = "copied to all subscribers", "published in part"
SOUND, NOT_SOUND, REFUSED = "sound", "not sound", "refused"
NOT_DECIDED, NOT_READ = "not decided", "not read"


@dataclass
class Verdict:
    """The answer for a table."""

    table: str
    answer: str
    because: list[str] = field(default_factory=list)
    row: dict[str, str] | None = None
    takers: list[str] = field(default_factory=list)
    matters: list[str] = field(default_factory=list)
    remarks: list[str] = field(default_factory=list)
    # Rows for which a filter fails, so that the server ends the replication, in words. --strict makes them a fault.
    failing: list[str] = field(default_factory=list)
    # Parts of its filters that the server evaluates only for some rows, and for which it may fail.
    guarded: list[str] = field(default_factory=list)
    # What the answer is based on: the certificate, the catalog, and what was printed into it.
    certificate: str | None = None
    catalog: str | None = None
    trial: Trial | None = None
    takers_of_rows: Takers = field(default_factory=dict)
    purpose: str | None = None
    # Operations that are left out on purpose, if something would be refused otherwise.
    left_out: list[str] = field(default_factory=list)
    # The filters and constraints as they were read, and, if the table is not sound, all regions that show it.
    read: Read | None = None
    faulty: FaultyRegions | None = None
    counts: Counts | None = None
    map: Map | None = None


def judged(db: Database, shares: Shares, purpose: str | None, session: Session) -> Verdict:
    """Returns the verdict of a table. `purpose` is None, `copied` or `partial`; the session asks the server about
    values."""
    name = full_name(shares.table)
    if any(it["is_locked"] for it in [shares.table, *shares.leaves, *(it.table for it in shares.silent)]):
        return Verdict(name, NOT_DECIDED, ["another session holds or awaits an ACCESS EXCLUSIVE lock on it"])
    if shares.undecided:
        return Verdict(name, NOT_DECIDED, list(shares.undecided))
    try:
        for partition in shares.silent if purpose != "partial" else ():
            verdict = judged_within(db, partition, purpose, session)
            if verdict.answer != SOUND:
                return replace(verdict, table=name)
        return judged_within(db, shares, purpose, session)
    except Undecided as fault:
        return Verdict(name, NOT_DECIDED, [fault.words])
    except FAILURES as fault:
        # An unforeseen failure for one table does not affect the others.
        return Verdict(name, NOT_DECIDED, [f"judge fails at it ({type(fault).__name__}: {fault})"])


def judged_within(db: Database, shares: Shares, purpose: str | None, session: Session) -> Verdict:
    """Judges a table within its bounds. A foreign table is also judged with arbitrary rows, since the server enforces
    its bounds only for rows that are routed through a table above it."""
    verdict = judged_alone(db, shares, purpose, session)
    if verdict.answer != SOUND or shares.table["kind"] != "f":
        return verdict
    anywhere = shares.table | {"partition": None}
    found = judged_alone(db, replace(shares, table=anywhere, leaves=[anywhere]), purpose, session)
    if found.answer != NOT_SOUND:
        return verdict
    found.remarks.append(
        f"INSERT into {found.table} itself takes it, since the server does not enforce the bounds of a foreign table")
    return found


def judged_alone(db: Database, shares: Shares, purpose: str | None, session: Session) -> Verdict:
    """Judges the same without the partitions of which the server sends nothing."""
    name = full_name(shares.table)
    named = {it: columns_of(text) for it, text in shares.filters.items() if text is not None}
    refused = refusals.refusals_of(db, shares)
    try:
        read = trials.read_of(shares, named, session.meanings(db))
    except NotRead as fault:
        verdict = Verdict(name, NOT_READ, [fault.words])
        if purpose != "copied":
            read = trials.unread_of(shares, named)
            verdict = with_witness(read, verdict, shares.takers, purpose, session)
        verdict.because.extend(refused)
        return verdict
    judge = judged_as_copied if purpose == "copied" else judged_as_split
    verdict = judge(db, read, name, purpose, session)
    verdict.read = read
    verdict.failing = list(dict.fromkeys([*failing.words_of(db, read, session), *verdict.failing]))
    verdict.guarded = [it.form for failures in read.failures.values() for it in failures if it.is_guarded]
    if verdict.answer == SOUND and purpose != "copied" and named:
        doubt(read, verdict, purpose, session)
    if verdict.answer == SOUND and shares.table["has_row_security"]:
        verdict.remarks.append("row-level security may keep rows from an initial copy")
    if shares.omitted and refused != refusals.refusals_of(db, replace(shares, omitted=frozenset())):
        verdict.left_out = [it for it in OPERATIONS if it in shares.omitted]
    stopped = list(failing.unprepared(db, read, session))
    is_refused = bool(refused or stopped) and verdict.answer in (SOUND, REFUSED)
    if is_refused:
        # What the check refuses of the catalog is among the reasons.
        verdict.answer, verdict.because = REFUSED, verdict.because if not refused else []
    verdict.because = list(dict.fromkeys([*verdict.because, *refused, *stopped]))
    if is_refused and not stopped:
        verdict.because.extend(mending.advice(db, shares))
    return verdict


def judged_as_split(db: Database, read: Read, name: str, purpose: str | None, session: Session) -> Verdict:
    """Judges whether each row goes to one subscriber."""
    return decided(db, read, name, read.shares.takers, purpose, session)


def judged_as_copied(db: Database, read: Read, name: str, _: str | None, session: Session) -> Verdict:
    """Judges whether each subscriber gets each row, that is, whether its own share by itself is a sound sharding."""
    verdict = Verdict(name, NOT_SOUND, ["no subscriber takes it"])
    for subscriber, taken in read.shares.takers.items():
        verdict = decided(db, read, name, {subscriber: taken}, None, session)
        if verdict.answer == NOT_SOUND and verdict.row is not None:
            verdict.takers = evaluating.confirmed(session, read, read.shares.takers, verdict.row).takers
            verdict.remarks.insert(0, f"it is to be copied to all subscribers, and {subscriber} does not get this row")
        if verdict.answer != SOUND:
            return verdict
    if verdict.answer == SOUND:
        verdict.remarks.append(COPIED)
    verdict.certificate = None
    return verdict


def decided(db: Database, read: Read, name: str, takers: Takers, purpose: str | None, session: Session) -> Verdict:
    """Tries the filters by themselves, then with facts, then with what the server enforces. The first proof counts."""
    verdict = None
    for with_facts, constraints in trials.trials_of(read):
        trial = trials.trial_of(db, read, takers, purpose, with_facts, constraints, session.sorted_texts)
        if with_facts and not trial.constraints:
            continue
        answer = program.run("make", trial.catalog)
        if isinstance(answer, program.Unreadable):
            verdict = verdict or Verdict(name, NOT_DECIDED, [limits.words(trial, answer)])
            continue
        trial.made, _ = program.made_of(answer, 0, name, catalogs.subscriber_names(takers, purpose))
        if trial.made.certificate:
            return accepted(name, trial, takers, purpose)
        verdict = without_proof(read, name, takers, purpose, trial, session)
        if verdict.answer == NOT_SOUND:
            return verdict
    assert verdict is not None
    return with_witness(read, verdict, takers, purpose, session)


def with_witness(
        read: Read, verdict: Verdict, takers: Takers, purpose: str | None, session: Session) -> Verdict:
    """Returns the same verdict, or one with a row that shows a fault, or for which a filter fails, among those about
    which the server is asked."""
    found = witnesses.search(session, read, takers, purpose)
    if found.row is not None:
        set_row(read, verdict, found.row, found.confirmed)
    verdict.failing.extend(found.failing)
    return verdict


def doubt(read: Read, verdict: Verdict, purpose: str | None, session: Session) -> None:
    """Asks the server about some rows of a table that is proved, since the proof depends on how judge reads the
    filters."""
    found = witnesses.search(session, read, read.shares.takers, purpose)
    if found.row is not None:
        set_row(read, verdict, found.row, found.confirmed)
    elif found.failing and not verdict.failing:
        verdict.answer, verdict.failing = NOT_DECIDED, found.failing
        verdict.because.append("a filter fails at rows at which judge did not expect it")


def accepted(name: str, trial: Trial, takers: Takers, purpose: str | None) -> Verdict:
    """Returns the verdict of a table with a certificate. `make` prints only certificates that the check accepts; here
    the check is run on these very texts."""
    assert trial.made.certificate is not None
    answer = program.checked(trial.catalog, [trial.made.certificate])
    last = answer if isinstance(answer, str) else f"{answer.part} {answer.place} {answer.kind}"
    verdict = Verdict(
        name, SOUND, certificate=trial.made.certificate, catalog=trial.catalog, trial=trial, takers_of_rows=takers,
        purpose=purpose)
    missing = re.fullmatch(r"refused PublishMissing (.*) (\w+)\n", last, re.S)
    if missing:
        verdict.answer = REFUSED
        verdict.because.append(refusals.missing_words([missing[1]], [missing[2]]))
    elif last != "accepted\n":
        verdict.answer = NOT_DECIDED
        verdict.because.append(f"pgshard check answers {last.strip()}")
    if purpose == "partial":
        verdict.remarks.append(PUBLISHED_IN_PART)
    return verdict


def without_proof(
        read: Read, name: str, takers: Takers, purpose: str | None, trial: Trial, session: Session) -> Verdict:
    """Returns a row that shows a fault, if the server agrees, and otherwise why nothing is known."""
    verdict = Verdict(name, NOT_DECIDED, catalog=trial.catalog, trial=trial)
    if trial.made.row is None:
        verdict.because.append(words_of_made(trial.made))
        return verdict
    for row in rows.candidates(read, trial):
        found = evaluating.confirmed(session, read, takers, row)
        if found.is_accepted and rows.is_fault(found.takers, purpose):
            set_row(read, verdict, row, found)
            return verdict
    verdict.because.append(rows.words_of_unconfirmed(read, trial))
    return verdict


def set_row(read: Read, verdict: Verdict, row: rows.Row, found: rows.Confirmed) -> None:
    """Turns a row that shows a fault into a verdict."""
    verdict.answer, verdict.because, verdict.takers = NOT_SOUND, [], found.takers
    verdict.row = row | {name: "DEFAULT" for name in found.generated}
    verdict.matters = rows.columns_that_matter(read)
    verdict.remarks = rows.remarks(read, row)
    verdict.remarks += [
        f"column {it} is generated, and has {value} in this row" for it, value in found.generated.items()]
    verdict.remarks += [f"judge knows no value of the type of column {it}, so give it one" for it in found.unfit]
    verdict.remarks += [f"CHECK {it} is NOT VALID: older rows may be like this one, but the server refuses new ones"
                        for it in found.refused_by]


def words_of_made(made: program.Made) -> str:
    """Returns why `make` has neither a certificate nor a row."""
    if made.word == "too large":
        return (
            "it exceeds a limit of pgshard: 1,000,000 nodes of a certificate, or 64 splits on a path of one; split the "
            "table by fewer columns, or by ranges of one")
    return (
        "pgshard found neither a proof that its rows are divided nor a row that shows a fault; split the table by one "
        "column, or say one filter as NOT of another")
