"""Judges repairs before they are printed: their statements run in a transaction that is rolled back."""

import json
from collections.abc import Mapping, Sequence
from dataclasses import dataclass, field
from typing import Any

from pgshard_tools.judging import faulty_regions, repairs
from pgshard_tools.judging import shares as sharing
from pgshard_tools.judging import verdicts
from pgshard_tools.judging.database import Database, Subscriber, full_name
from pgshard_tools.judging.faults import BAD_COMMAND, NOT_SOUND, SOUND, Fault
from pgshard_tools.judging.judgements import judged_in_time
from pgshard_tools.judging.migrations import Statement
from pgshard_tools.judging.options import Options
from pgshard_tools.judging.rehearsals import Rehearsal
from pgshard_tools.judging.repairs import NoRepair, Plan
from pgshard_tools.judging.session import Session
from pgshard_tools.judging.shares import Shares
from pgshard_tools.judging.timing import TimeIsUp, time_limit
from pgshard_tools.judging.verdicts import Verdict

NOTHING = "there is nothing to change in its filters"
KEEP_OUT = "a CHECK constraint that keeps such rows out, or filters that do not fail, come first"


@dataclass
class Repair:
    """The repair of a table, or the reason why there is none."""

    table: str
    before: str
    statements: list[str] = field(default_factory=list)
    notes: list[str] = field(default_factory=list)
    why_none: str | None = None


@dataclass
class Repairer:
    """What is judged, and how."""

    db: Database
    subscribers: Sequence[Subscriber]
    tables: Sequence[Shares]
    purposes: Mapping[str, str]
    session: Session
    options: Options

    def repair(self, table: Shares, verdict: Verdict) -> Repair:
        """Returns the first plan with which the table is sound, or why there is none."""
        found = Repair(verdict.table, verdict.answer)
        if verdict.answer == verdicts.SOUND:
            return found
        try:
            self.want_repairable(verdict)
            plan = self.accepted_plan(table, verdict)
            found.statements, found.notes = plan.statements, plan.notes
        except NoRepair as fault:
            found.why_none = fault.words
        return found

    def want_repairable(self, verdict: Verdict) -> None:
        """Gives up if other publications would not help."""
        reasons = "; ".join(verdict.because)
        if verdict.answer != verdicts.NOT_SOUND:
            raise NoRepair(f"it is {verdict.answer}, and only what is NOT SOUND is repaired: {reasons}")
        if verdict.read is None:
            raise NoRepair("a filter of it is not read; write it in a form that docs/JUDGING.md lists")
        if not faulty_regions.is_of(verdict.read, verdict.table):
            raise NoRepair(f"{'; '.join(verdict.remarks[:1])}; no publication helps; use ALTER TABLE .. SET LOGGED "
                           "for an unlogged partition, or --partial if this is meant")
        if self.purposes.get(verdict.table) == "copied":
            raise NoRepair(
                "each subscriber is to get each row of it, so each needs a publication of it without a filter")
        if self.session.ask("SELECT pg_catalog.pg_is_in_recovery()") != "f":
            raise NoRepair("the server is a hot standby, where no repair can be tried; use its primary")

    def accepted_plan(self, table: Shares, verdict: Verdict) -> Plan:
        """Judges one plan after the other."""
        assert verdict.read is not None
        purpose, reasons = self.purposes.get(verdict.table), []
        try:
            with time_limit(self.options.seconds):
                division = faulty_regions.division_of(self.db, verdict.read, table.takers, purpose, self.session)
        except TimeIsUp as fault:
            self.session.stop()
            raise NoRepair(f"it takes over {self.options.seconds:g} seconds; raise --seconds") from fault
        for plan in repairs.plans(self.db, table, division, purpose, self.keep(table)):
            why = self.why_refused(plan, table, verdict) if plan.statements else NOTHING
            if why == "":
                return plan
            reasons.append(why)
        raise NoRepair(reasons[0])

    def keep(self, table: Shares) -> list[str]:
        """Returns the subscribers that --keep names."""
        for name in self.options.keep:
            if name not in {it.name for it in self.subscribers}:
                known = ", ".join(it.name for it in self.subscribers)
                raise Fault(BAD_COMMAND, f"--keep {name}: no such subscriber; there are {known}")
        return [it for it in dict.fromkeys(self.options.keep) if it in table.takers]

    def why_refused(self, plan: Plan, before: Shares, now: Verdict) -> str:
        """Returns why the table is not sound with a plan, or '' if it is."""
        rehearsal = Rehearsal(self.options.words, self.options.seconds)
        listed = [*self.subscribers, *([Subscriber(plan.publication, [plan.publication])] if plan.publication else [])]
        try:
            rehearsal.want_primary()
            then = rehearsal.run([Statement(text, text) for text in (it.removesuffix(";") for it in plan.statements)])
            found = next(it for it in sharing.shares_of_all(then, listed) if full_name(it.table) == now.table)
            sharing.leave_out(then, [found], {now.table: before.omitted})
            verdict = judged_in_time(then, found, self.purposes.get(now.table), rehearsal, self.options)
        except Fault as fault:
            words = fault.words.removeprefix("refused: ")
            is_denied = "permission denied" in words or "must be owner" in words
            advice_on_role = "; try it as the publications' owner" if is_denied else ""
            return f"the server does not take it: {words}{advice_on_role}"
        finally:
            rehearsal.close()
        if verdict.answer == verdicts.SOUND:
            failing = next((it for it in verdict.failing if it not in now.failing), None)
            return f"with the repair {failing}; {KEEP_OUT}" if failing is not None else ""
        reasons = "; ".join(verdict.because) or "a row shows it"
        return f"with the repair it would be {verdict.answer}: {reasons}{advice(verdict)}"


def advice(verdict: Verdict) -> str:
    """Returns what to do if the repaired table is not sound."""
    reasons = " ".join(verdict.because)
    if "replica identity" in reasons:
        return "; do one of these first, or filter by the columns of the identity"
    if "not publish" in reasons or "takes publication" in reasons:
        return "; fix this first, and try again"
    return "; write the filters with fewer conditions, or by one column, and ask again"


def repairs_of(repairer: Repairer, found: Sequence[Verdict]) -> list[Repair]:
    """Returns the repairs of the tables that --repair names."""
    by_name = {it.table: it for it in found}
    tables = {full_name(it.table): it for it in repairer.tables}
    listed = []
    for word in repairer.options.repair:
        name = word if word in by_name else f"public.{word}"
        if name not in by_name:
            raise Fault(BAD_COMMAND, f"--repair {word}: {why_not_judged(repairer.db, word, list(by_name))}")
        listed.append(repairer.repair(tables[name], by_name[name]))
    return listed


def why_not_judged(db: Database, word: str, judged: Sequence[str]) -> str:
    """Returns why a word names no table that is judged: its partitions may be, or a table of another schema."""
    name = word if "." in word else f"public.{word}"
    roots = {table["oid"] for table in db.tables if full_name(table) == name}
    parts = [full_name(it) for it in db.tables if roots & set(it["ancestors"]) and full_name(it) in judged]
    if parts:
        return f"its partitions are judged one by one: {', '.join(parts)}"
    others = [it for it in judged if it.partition(".")[2] == name.partition(".")[2]]
    also = f"; {' and '.join(others)} {'is' if len(others) == 1 else 'are'}" if others else ""
    return f"no table {name} is published{also}"


def say(db: Database, listed: Sequence[Repair], options: Options) -> int:
    """Prints the repairs, and returns the exit status."""
    print(json_text(db, listed) if options.json else text(listed), flush=True)
    return status_of(listed)


def status_of(listed: Sequence[Repair]) -> int:
    """Returns the exit status, which depends on whether each table is sound, at least with its repair."""
    return NOT_SOUND if any(it.why_none is not None for it in listed) else SOUND


def text(listed: Sequence[Repair]) -> str:
    """Returns statements to paste, with comments."""
    return "\n".join(line for it in listed for line in lines_of(it))


def lines_of(repair: Repair) -> list[str]:
    if repair.why_none is not None:
        return [f"-- {repair.table}: no repair, since {comment(repair.why_none)}"]
    if not repair.statements:
        return [f"-- {repair.table}: sound, so there is nothing to repair"]
    is_one = len(repair.statements) == 1
    statements = repair.statements if is_one else ["BEGIN;", *repair.statements, "COMMIT;"]
    words = "this statement" if is_one else "these statements"
    return [f"-- {repair.table}: not sound; pgshard accepts it with {words}",
            *(f"-- {comment(it)}" for it in repair.notes), *statements]


def comment(words: str) -> str:
    """Returns words in one line."""
    return " ".join(words.split())


def json_of(repair: Repair) -> dict[str, Any]:
    """Returns the same for --json."""
    return {"table": repair.table, "before": repair.before, "statements": repair.statements, "notes": repair.notes,
            "why_none": repair.why_none}


def json_text(db: Database, listed: Sequence[Repair]) -> str:
    """Returns all repairs as JSON."""
    return json.dumps({"database": db.name, "status": status_of(listed), "repairs": [json_of(it) for it in listed]},
                      indent=2, ensure_ascii=False)
