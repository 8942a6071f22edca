"""The report of a judgement, as lines and as JSON."""

import json
from collections.abc import Iterator, Mapping, Sequence
from dataclasses import dataclass
from typing import Any, Protocol

from pgshard_tools.judging import verdicts
from pgshard_tools.judging.counting import Counts
from pgshard_tools.judging.database import Subscriber
from pgshard_tools.judging.faults import Fault
from pgshard_tools.judging.faulty_regions import FaultyRegions
from pgshard_tools.judging.verdicts import Verdict

# The rows of each table that go to each subscriber, as conditions in SQL.
Regions = dict[str, list[tuple[str, str]]]

# The most regions of a table that show a fault and are printed.
MOST_LINES = 20


class Judged(Protocol):
    """What is judged: a database or a file."""

    @property
    def name(self) -> str: ...

    @property
    def unpublished(self) -> Sequence[str]: ...

    @property
    def note(self) -> str | None: ...


@dataclass
class Report:
    """The whole report."""

    database: Judged
    subscribers: Sequence[Subscriber]
    how: str | None
    verdicts: Sequence[Verdict]
    regions: Regions
    status: int
    # Lines about tables that are not judged on purpose.
    skipped: Sequence[str] = ()
    # Problems other than those of tables.
    findings: Sequence[str] = ()


def text(report: Report, with_all: bool) -> str:
    """Returns the lines that an operator reads."""
    lines: list[str] = []
    if with_all:
        lines.extend(f"{name}: not published, so not judged" for name in report.database.unpublished)
    lines.extend(report.findings)
    if not report.verdicts:
        lines.append("no table is published, so there is nothing to judge")
    for verdict in report.verdicts:
        lines.extend(lines_of(verdict))
        lines.extend(f"    {where} → {who}" for where, who in report.regions.get(verdict.table, ()))
    lines.extend(report.skipped)
    if report.how:
        lines.append(report.how)
    if report.database.note:
        lines.append(report.database.note)
    lines.append(counts(report, with_all))
    return "\n".join(lines)


def counts(report: Report, with_all: bool) -> str:
    """Returns the last line."""
    sound = sum(it.answer == verdicts.SOUND for it in report.verdicts)
    unread = sum(it.answer == verdicts.NOT_READ for it in report.verdicts)
    parts = [f"{len(report.verdicts) - unread} judged, {sound} sound"]
    if unread:
        parts.append(f"{unread} not read")
    unpublished = len(report.database.unpublished)
    if unpublished:
        parts.append(f"{unpublished} not published" + ("" if with_all else ", which --all names"))
    return f"tables: {'; '.join(parts)}"


def lines_of(verdict: Verdict) -> list[str]:
    """Returns the report on a table, the rows for which a filter fails, and how many rows there are."""
    return [*answer_lines(verdict), *(f"    but {it}" for it in verdict.failing), *count_lines(verdict)]


def answer_lines(verdict: Verdict) -> list[str]:
    """Returns one line for a table that is sound, and more for any other."""
    reasons = "; ".join(verdict.because)
    remarks = f" ({', '.join(verdict.remarks)})" if verdict.remarks else ""
    match verdict.answer:
        case verdicts.SOUND:
            return [f"{verdict.table}: sound{remarks}"]
        case verdicts.REFUSED:
            return [f"{verdict.table}: REFUSED: each row passes the filters of one subscriber, but {reasons}"]
        case verdicts.NOT_DECIDED | verdicts.NOT_READ:
            return [f"{verdict.table}: {verdict.answer}: {reasons}"]
    if verdict.row is None:
        return [f"{verdict.table}: NOT SOUND: {reasons}"]
    takers = " and ".join(verdict.takers) or "no subscriber"
    lines = [f"{verdict.table}: NOT SOUND: the row {row_text(verdict.row)} goes to {takers}"]
    lines.append(f"    {matters_text(verdict.row, verdict.matters)}")
    lines.extend(f"    but {it}" for it in verdict.remarks)
    lines.extend(f"    REFUSED, too: {it}" for it in verdict.because)
    lines.extend(f"    {it}" for it in fault_lines(verdict.faulty, verdict.counts))
    return lines


def fault_lines(faulty: FaultyRegions | None, counts: Counts | None) -> Iterator[str]:
    """Yields each region that goes to nobody or to several, with one of its rows; if there are many, only the first
    ones."""
    if faulty is None:
        return
    for region in faulty.listed[:MOST_LINES]:
        example = f", as {row_text(region.row)}" if region.row is not None else ", if there is such a row"
        lacking = f", not {' and '.join(region.lacking)}" if region.lacking else ""
        found = counts.where.get(region.condition) if counts is not None else None
        counted = f": {rows_text(found)}" if found is not None else ""
        yield f"{region.condition} -> {takers_text(region.takers)}{lacking}{example}{counted}"
    unsaid = len(faulty.listed[MOST_LINES:])
    if faulty.more or unsaid:
        yield f"and {faulty.more + unsaid:,} more such regions, of which --json lists {unsaid:,}"
    if not faulty.is_whole:
        yield "and maybe others, since judge stops after so many; fewer conditions in the filters make fewer regions"


def count_lines(verdict: Verdict) -> Iterator[str]:
    """Yields how many rows there are, and the keys of some that show a fault."""
    counts = verdict.counts
    if counts is None:
        return
    if counts.why_none is not None:
        yield f"    its rows are not counted: {counts.why_none}"
        return
    if counts.lacking is not None:
        do = "does" if counts.lacking == 1 else "do"
        yield f"    of {rows_text(counts.rows)} {counts.lacking:,} {do} not go to each subscriber"
    else:
        yield (f"    of {rows_text(counts.rows)} {counts.nobody:,} {go(counts.nobody)} to nobody, "
               f"{counts.several:,} to several")
    for key in counts.keys:
        named = ", ".join(f"{name} = {value}" for name, value in key.values.items())
        yield f"    the row with {named} -> {takers_text(key.takers)}"


def go(count: int) -> str:
    """Returns the verb for a number of rows."""
    return "goes" if count == 1 else "go"


def rows_text(count: int) -> str:
    """Returns a number of rows."""
    return f"{count:,} row{'' if count == 1 else 's'}"


def takers_text(takers: Sequence[str]) -> str:
    """Returns who gets rows."""
    return " and ".join(takers) or "nobody"


def row_text(row: dict[str, str]) -> str:
    """Returns the values of a row."""
    return f"({', '.join(row.values())})"


def matters_text(row: dict[str, str], matters: Sequence[str]) -> str:
    """Returns the columns that decide where a row goes."""
    named = [f"{name} = {row[name]}" for name in matters if name in row]
    others = len(row) > len(named)
    if not named:
        return "no filter names a column"
    return ", ".join(named) + (", no filter names another column" if others else "")


def json_text(report: Report, more: Mapping[str, Any] | None = None) -> str:
    """Returns the same as JSON, with more keys; docs/OUTPUT.md documents its form."""
    return json.dumps(json_object(report) | dict(more or {}), indent=2, ensure_ascii=False)


def json_object(report: Report) -> dict[str, Any]:
    """Returns the object that is printed as JSON."""
    unpublished = report.database.unpublished
    return {
        "database": report.database.name,
        "status": report.status,
        "subscribers": [
            {"name": it.name, "publications": it.publications, "remarks": it.remarks} for it in report.subscribers],
        "subscribers_known": report.how,
        "tables": [json_of(it, report.regions.get(it.table)) for it in report.verdicts],
        "unpublished": unpublished,
    } | dict(optional_keys(report))


def fault_json(fault: Fault) -> str:
    """Returns why there is no judgement, as JSON."""
    return json.dumps(fault_object(fault), indent=2, ensure_ascii=False)


def fault_object(fault: Fault) -> dict[str, Any]:
    """Returns the object that is printed as JSON."""
    return {"status": fault.status, "error": fault.words}


def optional_keys(report: Report) -> Iterator[tuple[str, Any]]:
    """Yields the keys that only some reports have."""
    if report.findings:
        yield "findings", report.findings
    if report.skipped:
        yield "skipped", report.skipped
    if report.database.note:
        yield "note", report.database.note


def json_of(verdict: Verdict, regions: list[tuple[str, str]] | None) -> dict[str, Any]:
    """Returns the answer for a table."""
    found: dict[str, Any] = {"table": verdict.table, "answer": verdict.answer}
    if verdict.because:
        found["because"] = verdict.because
    if verdict.remarks:
        found["remarks"] = verdict.remarks
    if verdict.failing:
        found["failing"] = verdict.failing
    if verdict.row is not None:
        found |= {"row": verdict.row, "goes_to": verdict.takers, "columns": verdict.matters}
    if verdict.faulty is not None:
        found["faults"] = [
            {"rows": it.condition, "goes_to": it.takers, "row": it.row} for it in verdict.faulty.listed]
        found |= {"more_faults": verdict.faulty.more} if verdict.faulty.is_whole else {}
    if verdict.counts is not None:
        found |= counts_json(verdict.counts, found.get("faults", []))
    if regions is not None:
        found["regions"] = [{"rows": where, "subscriber": who} for where, who in regions]
    return found


def counts_json(counts: Counts, faults: Sequence[dict[str, Any]]) -> dict[str, Any]:
    """Returns the server's counts, including those of each region that shows a fault."""
    if counts.why_none is not None:
        return {"not_counted": counts.why_none}
    for fault in faults:
        fault |= {"count": counts.where[fault["rows"]]} if fault["rows"] in counts.where else {}
    found: dict[str, Any] = {
        "rows": counts.rows, "nobody": counts.nobody, "several": counts.several, "each": counts.each}
    if counts.lacking is not None:
        found["lacking"] = counts.lacking
    listed = [{"key": it.values, "goes_to": it.takers} for it in counts.keys]
    return {"counts": found} | ({"keys": listed} if listed else {})
