"""Compares what would be published after a migration with what is published now."""

from collections.abc import Mapping, Sequence

from pgshard_tools.judging import database, intents, report, saying, shares, subscribers, verdicts
from pgshard_tools.judging.database import Database, Subscriber
from pgshard_tools.judging.faults import BAD_COMMAND, Fault
from pgshard_tools.judging.findings import findings_of, status_with
from pgshard_tools.judging.intents import Intent
from pgshard_tools.judging.judgements import judged_all, purposes_of, status_of
from pgshard_tools.judging.migrations import statements_of
from pgshard_tools.judging.options import Options
from pgshard_tools.judging.rehearsals import Rehearsal
from pgshard_tools.judging.session import Session
from pgshard_tools.judging.shares import Shares
from pgshard_tools.judging.verdicts import Verdict

NOT_PUBLISHED, NOT_THERE = "not published", "not there"
WRITTEN = {verdicts.NOT_SOUND: "NOT SOUND", verdicts.REFUSED: "REFUSED"}


def judge(options: Options) -> int:
    """Judges the database as it is and as it would be, prints what changes, and returns the status of what would be."""
    if options.catalog is not None:
        raise Fault(BAD_COMMAND, "--catalog cannot be combined with --with")
    if options.repair or options.html is not None:
        raise Fault(BAD_COMMAND, "--repair and --html cannot be combined with --with")
    intent = intents.read(options.intent)
    options = intents.with_intent(options, intent)
    assert options.migration is not None
    statements = statements_of(options.migration)
    rehearsal = Rehearsal(options.words, options.seconds)
    try:
        now = database.read_database(options.words)
        rehearsal.want_primary()
        tables = shares.shares_of_all(now, subscribers_now(now, options, intent))
        before = judged_now(now, intents.taken(now, intent, tables), options)
        then = rehearsal.run(statements)
        listed, how = intents.subscribers_of(then, options, intent)
        tables_then = shares.shares_of_all(then, listed)
        intents.want_published(intent, [*tables, *tables_then])
        purposes = purposes_of(options, [*tables, *tables_then])
        found, regions = judged_all(then, intents.taken(then, intent, tables_then), purposes, rehearsal, options)
    finally:
        rehearsal.close()
    intents.cite(intent, found, listed, purposes)
    amiss = findings_of(then, listed)
    status = status_with(status_of(found, options.strict), amiss)
    answer = report.Report(then, listed, how, found, regions, status, intents.skipped(intent), amiss)
    changes = changes_of(answers_of(now, before), answers_of(then, found))
    listed_changes = [{"table": name, "before": one, "after": other} for name, one, other in changes]
    return saying.say(answer, options, {"with": options.migration, "changes": listed_changes},
                      "\n".join(["", *lines_of(changes, options.migration)]))


def judged_now(now: Database, tables: Sequence[Shares], options: Options) -> list[Verdict]:
    """Returns the verdicts without the migration. A table of --copied and --partial may not exist yet."""
    names = {database.full_name(it.table) for it in tables}
    purposes: dict[str, str] = {}
    for purpose, words in ("copied", options.copied), ("partial", options.partial):
        purposes |= {name: purpose for word in words for name in (word, f"public.{word}") if name in names}
    session = Session(options.words, options.seconds)
    try:
        return judged_all(now, tables, purposes, session, options)[0]
    finally:
        session.close()


def subscribers_now(now: Database, options: Options, intent: Intent) -> list[Subscriber]:
    """Returns the subscribers. Those in psql's variable and in a file may take what is not published yet."""
    if options.subscriber or options.subscriptions is None and not intent.subscribers:
        return subscribers.subscribers_of(now, None, options.subscriber)[0]
    if options.subscriptions is None:
        return subscribers.where_there(now, intent.subscribers)
    return subscribers.from_variable_where_there(now, options.subscriptions)


def answers_of(db: Database, found: Sequence[Verdict]) -> dict[str, str]:
    """Returns the answer for each table that exists."""
    return dict.fromkeys(db.unpublished, NOT_PUBLISHED) | {
        it.table: WRITTEN.get(it.answer, it.answer) for it in found}


def changes_of(before: Mapping[str, str], after: Mapping[str, str]) -> list[tuple[str, str, str]]:
    """Returns the tables whose answers change. A table that does not exist is not published either."""
    found = []
    for name in sorted({*before, *after}):
        one, other = before.get(name, NOT_THERE), after.get(name, NOT_THERE)
        if one != other and {one, other} != {NOT_PUBLISHED, NOT_THERE}:
            found.append((name, one, other))
    return found


def lines_of(changes: Sequence[tuple[str, str, str]], path: str) -> list[str]:
    """Returns what changes, for an operator."""
    if not changes:
        return [f"with {path} no answer changes"]
    return [f"with {path} these answers change:", *(f"    {name}: {one} -> {other}" for name, one, other in changes)]
