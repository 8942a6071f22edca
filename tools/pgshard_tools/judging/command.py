"""The command line of tools/judge."""

import contextlib
import os
import sys
import traceback
from collections.abc import Mapping, Sequence
from dataclasses import dataclass

from pgshard_tools.judging import (
    catalog_files,
    database,
    intents,
    many,
    monitoring,
    outputs,
    pages,
    parser,
    repairing,
    report,
    saying,
    schema_files,
    shares,
    what_if,
)
from pgshard_tools.judging.faults import BAD_COMMAND, NO_OUTPUT, NO_PROGRAM, NOT_READ, SOUND, Fault
from pgshard_tools.judging.findings import findings_of, status_with
from pgshard_tools.judging.judgements import judged_all, purposes_of, status_of
from pgshard_tools.judging.options import Options, options_of
from pgshard_tools.judging.outputs import NoOutput
from pgshard_tools.judging.repairing import Repairer
from pgshard_tools.judging.session import Session
from pgshard_tools.judging.verdicts import Verdict


@dataclass
class Judgement:
    """The report on a database, requested repairs, and what is published to all or in part on purpose."""

    answer: report.Report
    db: database.Database
    repairs: Sequence[repairing.Repair]
    purposes: Mapping[str, str]


def main() -> int:
    """Runs the command with the arguments of this process."""
    return run(sys.argv[1:])


def run(words: Sequence[str]) -> int:
    """Runs the command, and returns its exit status. If the output cannot be written, it has a status of its own."""
    try:
        outputs.open_output()
        status = answered(words)
        sys.stdout.flush()
        return status
    except NoOutput as fault:
        outputs.drop_output()
        outputs.tell(f"judge: {fault}")
        return monitoring.UNKNOWN if "--nagios" in words else NO_OUTPUT


def answered(words: Sequence[str]) -> int:
    """Prints the answer, or why there is none, and returns the exit status."""
    options = None
    try:
        options = options_of(words)
        return judge(options)
    except SystemExit:
        # The help or the version was printed.
        return SOUND
    except NoOutput:
        raise
    except Exception as fault:
        return ended(fault_of(fault), words, options)


def fault_of(fault: Exception) -> Fault:
    """Returns why there is no judgement. For a failure that no rule foresees, its place in the code is printed."""
    match fault:
        case Fault():
            return fault
        case MemoryError():
            return Fault(NO_PROGRAM, "out of memory")
        case ImportError():
            return Fault(NO_PROGRAM, f"a module of judge cannot be loaded: {fault}")
        case OSError():
            return Fault(NO_PROGRAM, f"judge cannot continue: {fault}")
    outputs.tell("".join(traceback.format_exception(fault)).rstrip("\n"))
    return Fault(NO_PROGRAM, "judge itself fails, at the place that is printed on standard error")


def ended(fault: Fault, words: Sequence[str], options: Options | None) -> int:
    """Reports why there is no judgement. The requested form of the report is looked up in the arguments even if they
    are invalid."""
    if options is not None and options.prometheus is not None:
        # The first fault may be that this file cannot be written.
        with contextlib.suppress(Fault):
            monitoring.write_metrics(options.prometheus, monitoring.run_metrics(fault.status))
    if "--nagios" in words:
        line, status = monitoring.plugin_fault(fault)
        print(line)
        return status
    if "--json" in words:
        print(report.fault_json(fault))
    elif fault.status == NOT_READ:
        print(fault.words)
    else:
        sys.stdout.flush()
        outputs.tell(f"judge: {fault.words}")
    return fault.status


def judge(options: Options) -> int:
    """Judges a file or a server."""
    file = file_of(options)
    if file is None:
        return judge_database(options)
    if options.databases or options.watch is not None:
        raise Fault(BAD_COMMAND, "--databases and --watch judge a server, not a file")
    if not schema_files.is_schema(file):
        return catalog_files.judge(file, options)
    with schema_files.served(file, options) as served:
        return judge_database(served)


def judge_database(options: Options) -> int:
    """Judges a database as it is, or as it would be after a migration."""
    if options.keep and not options.repair:
        raise Fault(BAD_COMMAND, "--keep needs --repair")
    if options.repair and (options.nagios or options.prometheus is not None):
        raise Fault(BAD_COMMAND, "--repair prints statements, and cannot be combined with --nagios and --prometheus")
    parser.want_pglast()
    if options.databases or options.watch is not None:
        return many.judge(options, reported)
    return what_if.judge(options) if options.migration is not None else judge_server(options)


def file_of(options: Options) -> str | None:
    """Returns the file to be judged, if any: a single argument that is neither an option nor a connection string."""
    if len(options.names) != 1:
        return None
    word = options.names[0]
    if os.path.exists(word) and not os.path.isdir(word):
        return word
    is_connection = "=" in word or "://" in word
    if not is_connection and ("/" in word or "." in word):
        why = f"{word} is a folder" if os.path.isdir(word) else f"there is no file {word}"
        raise Fault(BAD_COMMAND, f"{why}; a database is named as in: -d shop")
    return None


def judge_server(options: Options) -> int:
    """Judges what a server publishes."""
    found = judged(options)
    if options.catalog is not None:
        return print_catalog(options.catalog, found.answer.verdicts)
    if options.html is not None:
        pages.write(options.html, found.answer, found.purposes, found.repairs)
    return repairing.say(found.db, found.repairs, options) if found.repairs else saying.say(found.answer, options)


def reported(options: Options) -> report.Report:
    """The report on a server's database."""
    return judged(options).answer


def judged(options: Options) -> Judgement:
    """Everything that judging a server's database yields."""
    intent = intents.read(options.intent)
    options = intents.with_intent(options, intent)
    db = database.read_database(options.words)
    listed, how = intents.subscribers_of(db, options, intent)
    published = shares.shares_of_all(db, listed)
    intents.want_published(intent, published)
    purposes = purposes_of(options, published)
    tables = intents.taken(db, intent, published)
    session = Session(options.words, options.seconds)
    try:
        found, regions = judged_all(db, tables, purposes, session, options)
        repairs = repairing.repairs_of(Repairer(db, listed, tables, purposes, session, options), found)
    finally:
        session.close()
    intents.cite(intent, found, listed, purposes)
    amiss = findings_of(db, listed)
    status = status_with(status_of(found, options.strict), amiss)
    answer = report.Report(db, listed, how, found, regions, status, intents.skipped(intent), amiss)
    return Judgement(answer, db, repairs, purposes)


def print_catalog(word: str, found: Sequence[Verdict]) -> int:
    """Prints the catalog that pgshard was given for a table."""
    for verdict in found:
        if verdict.table in (word, f"public.{word}") and verdict.catalog:
            print(verdict.catalog, end="")
            return SOUND
    raise Fault(BAD_COMMAND, f"--catalog {word}: no such table is judged by a catalog")
