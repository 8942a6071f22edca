"""Output for monitoring: one line for Nagios, a file for Prometheus, and exit statuses that distinguish answers."""

import re
import time
from collections.abc import Mapping, Sequence

from pgshard_tools.judging import verdicts, writing
from pgshard_tools.judging.faults import NOT_READ, NOT_SOUND, SOUND, Fault
from pgshard_tools.judging.report import Report

ANSWERS = (verdicts.SOUND, verdicts.NOT_SOUND, verdicts.REFUSED, verdicts.NOT_DECIDED, verdicts.NOT_READ)

# The statuses of --detailed-status, the worst first. They continue those of docs/JUDGING.md.
REFUSED, NOT_DECIDED, NOTHING, FAILING, FINDING = 7, 8, 9, 10, 11
# The statuses of a Nagios plugin.
OK, WARNING, CRITICAL, UNKNOWN = range(4)
WORDS = ("OK", "WARNING", "CRITICAL", "UNKNOWN")
PLUGIN = {SOUND: OK, NOT_SOUND: CRITICAL, REFUSED: CRITICAL, NOT_DECIDED: WARNING, NOTHING: WARNING, FAILING: WARNING,
          FINDING: WARNING, NOT_READ: UNKNOWN}


def detailed(report: Report, is_strict: bool) -> int:
    """Returns the status of the worst answer."""
    answers = {it.answer for it in report.verdicts}
    listed = ((verdicts.NOT_SOUND, NOT_SOUND), (verdicts.REFUSED, REFUSED), (verdicts.NOT_DECIDED, NOT_DECIDED))
    for answer, status in listed:
        if answer in answers:
            return status
    if is_strict and any(it.failing for it in report.verdicts):
        return FAILING
    if report.findings:
        return FINDING
    if verdicts.NOT_READ in answers:
        return NOT_READ
    return SOUND if report.verdicts else NOTHING


def counts(report: Report) -> dict[str, int]:
    """Returns how many tables have each answer."""
    return {answer: sum(it.answer == answer for it in report.verdicts) for answer in ANSWERS}


def plugin_line(report: Report, is_strict: bool) -> tuple[str, int]:
    """Returns the line of a Nagios plugin with its performance data, and its status."""
    status = PLUGIN[detailed(report, is_strict)]
    return plugin_whole(status, plugin_text(report), plugin_data(report)), status


def plugin_whole(status: int, text: str, data: Mapping[str, int]) -> str:
    """Returns the line for a text and its numbers."""
    return f"{plugin_words(status, text)} | {' '.join(f'{name}={number}' for name, number in data.items())}"


def plugin_text(report: Report) -> str:
    """Returns what the line says about a database."""
    found = counts(report)
    tables = "1 table" if len(report.verdicts) == 1 else f"{len(report.verdicts)} tables"
    parts = [f"{tables}, {found[verdicts.SOUND]} sound"] if report.verdicts else ["no table is published"]
    for answer in ANSWERS[1:]:
        names = [it.table for it in report.verdicts if it.answer == answer]
        parts += [f"{written(answer)}: {', '.join(names)}"] if names else []
    failing = [it.table for it in report.verdicts if it.failing]
    parts += [f"a filter fails: {', '.join(failing)}"] if failing else []
    parts += report.findings
    return f"{report.database.name}: {'; '.join(parts)}"


def plugin_data(report: Report) -> dict[str, int]:
    """Returns the numbers of a database."""
    return {
        "tables": len(report.verdicts), **{label(it): number for it, number in counts(report).items()},
        "failing": sum(bool(it.failing) for it in report.verdicts), "not_published": len(report.database.unpublished),
        "findings": len(report.findings)}


def plugin_words(status: int, text: str) -> str:
    """Returns one line of text, in which `|` occurs only before the performance data."""
    cleaned = re.sub(r"\s+", " ", text).replace("|", "/")
    return f"PGSHARD {WORDS[status]} - {cleaned}"


def plugin_fault(fault: Fault) -> tuple[str, int]:
    """Returns the line if there is no judgement."""
    return plugin_words(UNKNOWN, fault.words), UNKNOWN


def written(answer: str) -> str:
    """Returns an answer as written in the lines of a report."""
    return answer.upper() if answer in (verdicts.NOT_SOUND, verdicts.REFUSED) else answer


def label(answer: str) -> str:
    """Returns an answer as the name of a number."""
    return answer.replace(" ", "_")


def metrics(reports: Sequence[Report], status: int) -> str:
    """Returns the text for Prometheus. A table has 1 for its answer, and 0 for the others, so that each series
    continues."""
    tables, failing, numbers, unpublished, findings = [], [], [], [], []
    for report in reports:
        database = {"database": report.database.name}
        tables += [sample("pgshard_table_answer", database | {"table": it.table, "answer": label(answer)},
                          int(it.answer == answer)) for it in report.verdicts for answer in ANSWERS]
        failing += [sample("pgshard_table_filter_fails", database | {"table": it.table}, int(bool(it.failing)))
                    for it in report.verdicts]
        numbers += [sample("pgshard_tables", database | {"answer": label(answer)}, number)
                    for answer, number in counts(report).items()]
        unpublished.append(sample("pgshard_unpublished_tables", database, len(report.database.unpublished)))
        findings.append(sample("pgshard_findings", database, len(report.findings)))
    return "".join([
        family("pgshard_table_answer", "Whether judge has this answer of a published table.", tables),
        family("pgshard_table_filter_fails", "Whether a filter of the table fails at a row it may hold.", failing),
        family("pgshard_tables", "Published tables by judge's answer.", numbers),
        family("pgshard_unpublished_tables", "Tables that are not published.", unpublished),
        family("pgshard_findings", "Problems with subscriptions and slots.", findings), run_metrics(status)])


def run_metrics(status: int) -> str:
    """Returns the metrics of each run, including one without a judgement."""
    return "".join([
        family("pgshard_judge_status", "The exit status of the last run of judge.", [
            sample("pgshard_judge_status", {}, status)]),
        family("pgshard_judge_time_seconds", "When judge ran last, in seconds since 1970.", [
            sample("pgshard_judge_time_seconds", {}, int(time.time()))])])


def family(name: str, says: str, samples: Sequence[str]) -> str:
    """Returns a metric with its help and its type."""
    return f"# HELP {name} {says}\n# TYPE {name} gauge\n{''.join(samples)}" if samples else ""


def sample(name: str, labels: Mapping[str, str], value: int) -> str:
    """Returns one line."""
    listed = ",".join(f'{key}="{escaped(text)}"' for key, text in labels.items())
    return f"{name}{'{' if listed else ''}{listed}{'}' if listed else ''} {value}\n"


def escaped(text: str) -> str:
    """Returns the value of a label."""
    return text.replace("\\", "\\\\").replace('"', '\\"').replace("\n", "\\n")


def write_metrics(path: str, text: str) -> None:
    """Writes the file for Prometheus. Everyone may read it, since it is collected by another user."""
    writing.write(path, text, 0o644)
