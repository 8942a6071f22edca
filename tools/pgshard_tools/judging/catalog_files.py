"""Judges a catalog text directly."""

import re
from collections.abc import Sequence
from dataclasses import dataclass

from pgshard_tools.judging import marks, program, report, saying, verdicts
from pgshard_tools.judging.catalog_tokens import Table, statements_of, stored, table_of
from pgshard_tools.judging.faults import BAD_COMMAND, NO_PROGRAM, NOT_READ, NOT_SOUND, SOUND, Fault
from pgshard_tools.judging.kinds import KINDS
from pgshard_tools.judging.options import Options
from pgshard_tools.judging.refusals import missing_words
from pgshard_tools.judging.verdicts import Verdict

# A subscription in a schema would connect to another server, unless it has the option that pg_dump writes. Those in
# pgshard's own texts have no options.
SUBSCRIPTION = re.compile(r"\bCREATE\s+SUBSCRIPTION\b([^;]*)", re.I)
UNCONNECTED = re.compile(r"\bconnect\s*=\s*'?(?:false|off|no|0)\b", re.I)
# The kinds of faults of texts that a server may accept.
OF_SCHEMAS = {"LeftOut", "ColumnList", "NoKey"}
AS_SCHEMA = (
    "CREATE SUBSCRIPTION makes the file a catalog text; with connect = false in each of them, judge reads it as a "
    "schema")


@dataclass
class Names:
    """The names in a catalog, as stored and in order, and all words of its publications, including their filters."""

    tables: list[Table]
    publications: list[str]
    subscriptions: list[str]
    publication_words: set[str]


@dataclass
class Source:
    """What a report says about the catalog's source."""

    name: str
    unpublished: tuple[str, ...] = ()
    note: str | None = None


def judge(path: str, options: Options) -> int:
    """Judges the catalog in a file, and returns the exit status."""
    only_of_servers = (options.copied, options.partial, options.catalog, options.subscriber, options.migration,
                       options.intent, options.repair, options.keep, options.count, options.html)
    if options.explain or any(only_of_servers):
        raise Fault(BAD_COMMAND, "a catalog text is judged as it is, and can be combined only with --all, "
                                 "--detailed-status, --json, --nagios, --prometheus, --seconds and --strict")
    catalog = read_file(path)
    made = program.run("make", catalog)
    if not isinstance(made, str):
        marks.mark_fault(path, catalog, made)
        raise Fault(NOT_READ, why_not_read(made, catalog))
    names = names_of(catalog)
    found = verdicts_of(catalog, names, made) if names.tables else []
    status = SOUND if found and all(it.answer == verdicts.SOUND for it in found) else NOT_SOUND
    unpublished = tuple(re.findall(r"(?m)^-- not published: (.*)$", catalog))
    answer = report.Report(Source(path, unpublished), [], None, found, {}, status)
    status = saying.say(answer, options)
    marks.mark_tables(path, catalog, found)
    return status


def read_file(path: str) -> str:
    """The text of a file."""
    try:
        with open(path, encoding="utf-8", newline="") as file:
            return file.read()
    except (OSError, UnicodeDecodeError) as fault:
        raise Fault(BAD_COMMAND, f"cannot read {path}: {fault}") from fault


def run(subcommand: str, text: str, catalog: str) -> str:
    """Returns the output of a run of pgshard that could read its input."""
    output = program.run(subcommand, text)
    if isinstance(output, program.Unreadable):
        raise Fault(NOT_READ, why_not_read(output, catalog))
    return output


def why_not_read(fault: program.Unreadable, catalog: str) -> str:
    """Returns a fault of the catalog, with its line."""
    if fault.part != "catalog":
        return "refused: the catalog is not UTF-8, has over 16,777,216 bytes, or has a line that is %% and nothing else"
    before = catalog.encode("utf-8", "surrogateescape")[:fault.place].decode("utf-8", "surrogateescape")
    at = len(before)
    begin = before.rfind("\n") + 1
    line = catalog[begin:].split("\n", 1)[0].rstrip("\r")
    there = " ".join(catalog[at:].split("\n", 1)[0][:60].split()) or "the end of the text"
    # Of a long line, only the part around the fault is shown.
    cut = max(0, at - begin - 70)
    has_cause = fault.kind in OF_SCHEMAS and connecting(catalog)
    return "\n".join([
        f"refused: line {before.count(chr(10)) + 1} of the catalog, {fault.kind} at: {there}",
        f"    {line[cut:cut + 110]}",
        f"    {' ' * (at - begin - cut)}^ {KINDS.get(fault.kind, fault.kind)}",
        *([AS_SCHEMA] if has_cause else []),
    ])


def connecting(text: str) -> list[int]:
    """Returns where subscriptions are created that would connect to another server."""
    return [it.start() for it in SUBSCRIPTION.finditer(text) if not UNCONNECTED.search(it[1])]


def names_of(catalog: str) -> Names:
    """Returns the names in a catalog that pgshard reads."""
    names = Names([], [], [], set())
    for statement in statements_of(catalog):
        match [word.upper() for word in statement[:2]]:
            case ["CREATE", "TABLE"]:
                names.tables.append(table_of(statement[2:]))
            case ["CREATE", "PUBLICATION"]:
                names.publications.append(stored(statement[2]))
                names.publication_words.update(stored(token) for token in statement[3:])
            case ["CREATE", "SUBSCRIPTION"]:
                names.subscriptions.append(stored(statement[2]))
    return names


def verdicts_of(catalog: str, names: Names, made: str) -> list[Verdict]:
    """Returns the verdict on each table. `make` prints only certificates that `check` accepts; a check of all tables
    together shows what else is refused."""
    answers, at = [], 0
    for table in names.tables:
        answer, at = program.made_of(made, at, table.name, names.subscriptions)
        answers.append(answer)
    refused, last = check(catalog, names, [it.certificate for it in answers if it.certificate])
    missing = words_of_missing(last) if last.startswith("refused PublishMissing ") else None
    if missing is None and last not in ("accepted", "refused CertCount"):
        raise Fault(NO_PROGRAM, f"pgshard check answers {last}")
    found = []
    for table, answer in zip(names.tables, answers):
        verdict = verdict_of(table, answer, names)
        verdict.because.extend(it for it in (refused.get(table.name), missing) if it)
        if verdict.answer == verdicts.SOUND and verdict.because:
            verdict.answer = verdicts.REFUSED
        found.append(verdict)
    return found


def verdict_of(table: Table, answer: program.Made, names: Names) -> Verdict:
    """Returns the verdict on a table according to the answer of `make`."""
    if answer.certificate:
        return Verdict(table.name, verdicts.SOUND, certificate=answer.certificate)
    if answer.row is None:
        return Verdict(table.name, verdicts.NOT_DECIDED, [verdicts.words_of_made(answer)])
    row = dict(zip(table.columns, answer.row))
    matters = [it for it in table.columns if it in names.publication_words]
    return Verdict(table.name, verdicts.NOT_SOUND, row=row, takers=answer.owners, matters=matters)


def check(catalog: str, names: Names, certificates: Sequence[str]) -> tuple[dict[str, str], str]:
    """Returns why tables are refused, by their names, and the last answer of `pgshard check`.

    The check reports only its first reason. To find those of other tables too, it is repeated with an identity for
    which the first table has no such reason.
    """
    refused: dict[str, str] = {}
    while True:
        text = "".join([catalog, "\n%%\n", *(f"{certificate}\n" for certificate in certificates)])
        last = run("check", text, catalog).removesuffix("\n")
        refusal = refusal_of(last, names)
        if refusal is None or refusal[0].name in refused:
            return refused, last
        table, words = refusal
        refused[table.name] = words
        catalog += f"\nALTER TABLE {table.written} REPLICA IDENTITY FULL;"


def refusal_of(line: str, names: Names) -> tuple[Table, str] | None:
    """Returns the table whose identity the check refuses, if any, and the message about it."""
    for table in names.tables:
        if line == f"refused NoIdentity {table.name}":
            return table, "the server refuses updates and deletes, since its replica identity is NOTHING"
        for publication in names.publications:
            for column in table.columns:
                if line == f"refused NotCovered {publication} {table.name} {column}":
                    return table, (
                        f"the server refuses updates and deletes, since the filter of publication {publication} names "
                        f"column {column}, which is not in the replica identity"
                    )
    return None


def words_of_missing(line: str) -> str:
    """Returns the message that an operation is not published."""
    publication, operation = line.removeprefix("refused PublishMissing ").rsplit(" ", 1)
    return missing_words([publication], [operation])
