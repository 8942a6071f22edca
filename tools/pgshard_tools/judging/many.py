"""Judges every database of a server, or one database repeatedly."""

import contextlib
import datetime
import json
import time
from collections.abc import Callable, Iterator, Sequence
from dataclasses import dataclass, replace
from typing import Any
from urllib.parse import quote

from pgshard_tools.judging import monitoring, report
from pgshard_tools.judging.database import run_psql
from pgshard_tools.judging.faults import BAD_COMMAND, NO_ANSWER, NO_PROGRAM, NOT_READ, NOT_SOUND, SOUND, Fault
from pgshard_tools.judging.options import Options
from pgshard_tools.judging.report import Report

NAMES = """
SELECT coalesce(pg_catalog.json_agg(datname ORDER BY datname COLLATE pg_catalog."C"), '[]') FROM pg_catalog.pg_database
WHERE datallowconn AND NOT datistemplate
"""
# The statuses, the worst first.
WORST = (NOT_SOUND, monitoring.REFUSED, monitoring.NOT_DECIDED, monitoring.FAILING, monitoring.FINDING, NOT_READ,
         NO_ANSWER, NO_PROGRAM, BAD_COMMAND, monitoring.NOTHING, SOUND)
WORST_OF_PLUGINS = (monitoring.CRITICAL, monitoring.WARNING, monitoring.UNKNOWN, monitoring.OK)
NO_JUDGEMENT, NOT_PUBLISHED = "no judgement", "not published"

# What may change, by the name of the database, which is '' if it is the only one, and by table: the answers of tables;
# and under the table name '', the findings, and why there is no judgement.
States = dict[tuple[str, str], str]
# Judges the database that the options name.
Judge = Callable[[Options], Report]


@dataclass
class Answer:
    """The answer for a database, or the reason why there is none."""

    name: str
    found: Report | Fault

    @property
    def is_judged(self) -> bool:
        """Returns whether something is published there, or whether that is not known."""
        return isinstance(self.found, Fault) or bool(self.found.verdicts) or bool(self.found.findings)

    def status(self, options: Options) -> int:
        """The exit status for one database."""
        if isinstance(self.found, Fault):
            return self.found.status
        return monitoring.detailed(self.found, options.strict) if options.detailed_status else self.found.status


def judge(options: Options, judged: Judge) -> int:
    """Judges all databases, or one, once or repeatedly. Returns the exit status of the last time."""
    want_alone(options)
    answers = answers_of(options, judged)
    if options.watch is None:
        say(answers, options)
        return status_of(answers, options)
    say(answers, options)
    states = states_of(answers, {}, options)
    with contextlib.suppress(KeyboardInterrupt):
        while True:
            time.sleep(options.watch)
            answers = answers_of(options, judged)
            states, before = states_of(answers, states, options), states
            write_metrics(answers, options)
            say_changes(before, states, answers, options)
    return status_of(answers, options)


def want_alone(options: Options) -> None:
    """Refuses options that are only for one database or one judgement."""
    given: dict[str, object]
    if options.databases:
        given = {"--with": options.migration, "--catalog": options.catalog, "--copied": options.copied,
                 "--partial": options.partial, "--intent": options.intent, "--subscriber": options.subscriber,
                 "-v": options.subscriptions}
    else:
        given = {"--with": options.migration, "--catalog": options.catalog}
    given |= {"--repair": options.repair, "--html": options.html}
    if options.watch is not None:
        given["--nagios"] = options.nagios
    for word, value in given.items():
        if value:
            other = "--databases" if options.databases else "--watch"
            raise Fault(BAD_COMMAND, f"{word} cannot be combined with {other}")


def answers_of(options: Options, judged: Judge) -> list[Answer]:
    """Returns the present answers."""
    if not options.databases:
        return [answer_of("", options, judged)]
    try:
        found = names_of(options)
    except Fault as fault:
        if options.watch is None:
            raise
        return [Answer("", fault)]
    return [answer_of(it, replace(options, words=words_of(options.words, it)), judged) for it in found]


def answer_of(name: str, options: Options, judged: Judge) -> Answer:
    """Returns the answer for a database. A fault of one does not affect the others."""
    try:
        found = judged(options)
        return Answer(found.database.name, found)
    except Fault as fault:
        if not options.databases and options.watch is None:
            raise
        return Answer(name, fault)


def names_of(options: Options) -> list[str]:
    """Returns the databases of the server that accept connections, except templates."""
    words = options.words if "-d" in options.words else [*options.words, "-d", "postgres"]
    try:
        found: list[str] = json.loads(run_psql([*words, "-q", "-A", "-t", "-c", NAMES]))
    except ValueError as fault:
        raise Fault(NO_ANSWER, "psql does not answer with the names of databases") from fault
    return found


def words_of(words: Sequence[str], name: str) -> list[str]:
    """Returns the arguments with which psql connects to another database of the server."""
    found = list(words)
    given = ""
    if "-d" in found:
        at = found.index("-d")
        given = found[at + 1]
        del found[at:at + 2]
    if "://" in given:
        return [*found, "-d", f"{given}{'&' if '?' in given else '?'}dbname={quote(name, safe='')}"]
    escaped = name.replace("\\", "\\\\").replace("'", "\\'")
    return [*found, "-d", f"{given if '=' in given else ''} dbname='{escaped}'".strip()]


def status_of(answers: Sequence[Answer], options: Options) -> int:
    """Returns the worst status of the databases in which something is published."""
    judged = [it for it in answers if it.is_judged]
    if options.nagios:
        found = (plugin_status(it, options) for it in judged)
        return min(found, key=WORST_OF_PLUGINS.index, default=monitoring.WARNING)
    nothing = monitoring.NOTHING if options.detailed_status else NOT_SOUND
    return min((it.status(options) for it in judged), key=WORST.index, default=nothing)


def plugin_status(answer: Answer, options: Options) -> int:
    """Returns the status of a database for Nagios."""
    if isinstance(answer.found, Fault):
        return monitoring.UNKNOWN
    return monitoring.PLUGIN[monitoring.detailed(answer.found, options.strict)]


def say(answers: Sequence[Answer], options: Options) -> None:
    """Prints everything."""
    write_metrics(answers, options)
    if options.nagios:
        print(plugin_line(answers, options), flush=True)
    elif options.json:
        indent = None if options.watch else 2
        print(json.dumps(object_of(answers, options), indent=indent, ensure_ascii=False), flush=True)
    else:
        print("\n".join(lines_of(answers, options)), flush=True)


def write_metrics(answers: Sequence[Answer], options: Options) -> None:
    """Writes the file for Prometheus, if one was requested."""
    if options.prometheus is not None:
        reports = [it.found for it in answers if isinstance(it.found, Report)]
        monitoring.write_metrics(options.prometheus, monitoring.metrics(reports, status_of(answers, options)))


def lines_of(answers: Sequence[Answer], options: Options) -> Iterator[str]:
    """Yields the lines that an operator reads. With --databases, those of a database follow its name."""
    for answer in answers:
        said = answer.found.words if isinstance(answer.found, Fault) else report.text(answer.found, options.all)
        if not options.databases:
            yield f"judge: {said}" if isinstance(answer.found, Fault) else said
        elif not answer.is_judged:
            yield f"database {answer.name}: nothing is published"
        else:
            yield f"database {answer.name}:"
            yield from (f"    {line}" for line in said.split("\n"))


def plugin_line(answers: Sequence[Answer], options: Options) -> str:
    """Returns the line of a Nagios plugin for all databases in which something is published."""
    judged = [it for it in answers if it.is_judged]
    texts, data = [], dict[str, int]()
    for answer in judged:
        if isinstance(answer.found, Fault):
            texts.append(f"{answer.name}: {answer.found.words}")
            continue
        texts.append(monitoring.plugin_text(answer.found))
        for name, number in monitoring.plugin_data(answer.found).items():
            data[name] = data.get(name, 0) + number
    text = "; ".join(texts) or "no table is published"
    return monitoring.plugin_whole(status_of(answers, options), text, {"databases": len(judged)} | data)


def object_of(answers: Sequence[Answer], options: Options) -> dict[str, Any]:
    """Returns everything as a JSON object."""
    found = [json_of(it, options) for it in answers]
    return {"status": status_of(answers, options), "databases": found} if options.databases else found[0]


def json_of(answer: Answer, options: Options) -> dict[str, Any]:
    """Returns a database as a JSON object."""
    if isinstance(answer.found, Fault):
        named = {"database": answer.name} if options.databases else {}
        return named | report.fault_object(answer.found)
    return report.json_object(answer.found) | {"status": answer.status(options)}


def states_of(answers: Sequence[Answer], known: States, options: Options) -> States:
    """Returns what may change. If there is no judgement, the previous one is kept."""
    states: States = {}
    for answer in answers:
        name = answer.name if options.databases else ""
        if isinstance(answer.found, Fault):
            states |= {key: it for key, it in known.items() if key[0] == name or not name}
            states[name, NO_JUDGEMENT] = answer.found.words
        else:
            states |= {(name, it.table): monitoring.written(it.answer) for it in answer.found.verdicts}
            states |= {(name, it): "" for it in answer.found.findings}
    return states


def say_changes(before: States, after: States, answers: Sequence[Answer], options: Options) -> None:
    """Prints what has changed, with the time, and everything about each table whose answer has changed."""
    changed = [it for it in sorted({*before, *after}) if before.get(it) != after.get(it)]
    if not changed:
        return
    lines = [f"{f'database {it[0]}: ' if it[0] else ''}{change_words(it[1], before.get(it), after.get(it))}"
             for it in changed]
    now = datetime.datetime.now(datetime.timezone.utc).strftime("%Y-%m-%dT%H:%M:%SZ")
    if options.json:
        print(json.dumps({"time": now, "changed": lines} | object_of(answers, options), ensure_ascii=False), flush=True)
        return
    told = {(answer.name if options.databases else "", it.table): report.lines_of(it) for answer in answers
            if isinstance(answer.found, Report) for it in answer.found.verdicts}
    for key, line in zip(changed, lines):
        print("\n    ".join([f"{now} {line}", *told.get(key, ())]), flush=True)


def change_words(what: str, before: str | None, after: str | None) -> str:
    """Returns the line for a change: of a problem, of a table, or of whether there is a judgement."""
    if what == NO_JUDGEMENT:
        return "judged again" if after is None else f"{NO_JUDGEMENT}: {after}"
    if "" in (before, after):
        return f"no longer: {what}" if after is None else what
    return f"{what}: {before or NOT_PUBLISHED} -> {after or NOT_PUBLISHED}"
