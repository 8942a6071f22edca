"""Explains the lines of a run: `file:line:column: sentence`, or `pgshard: sentence` if there is no position."""

import re

from pgshard_tools.judging.catalog_tokens import Table
from pgshard_tools.judging.faults import Fault
from pgshard_tools.judging.program import Made, made_of
from pgshard_tools.pointing import sentences
from pgshard_tools.pointing.catalogs import made_in
from pgshard_tools.pointing.certificates import place_of_fault, place_of_node
from pgshard_tools.pointing.source import Part, Source

PLACED = re.compile(r"(catalog|script) (\d+) (\w+)")
CERTIFICATE = re.compile(r"certificate (\d+) (\w+)")
UNREAD = re.compile(r"unreadable (\d+) (\w+)")
UNFIT = re.compile(r"invalid (\w+)(?: (\d+))?")
VALUE = re.compile(r"'(?:[^']|'')*'|[^,()']+")

# At most this many bad rows are reported.
MOST_TOLD = 20


def explained(words: list[str], source: Source, status: int, output: str) -> list[str]:
    """Returns the sentences about a run."""
    subcommand = next((word for word in words if word in sentences.PARTS), "")
    lines = output.split("\n")[:-1]
    last = lines[-1] if lines else ""
    if status == 3:
        return [of_input(subcommand, source, last)]
    if status == 4:
        return of_failure(words, lines)
    if status == 5:
        return ["pgshard: out of memory"]
    if status != 1:
        return []
    if subcommand == "eval":
        return of_rows(source, words, lines)
    if subcommand == "make":
        return of_tables(source, output)
    return of_refusal(source, last)


def of_failure(words: list[str], lines: list[str]) -> list[str]:
    """Returns the sentence about an output that cannot be written. Before serve and publish write their first line,
    only the port can be at fault, which the program reports itself."""
    is_serve = words[:1] == ["serve"]
    if not lines and (is_serve or words[:1] == ["publish"]):
        return []
    return [f"pgshard: cannot write the output{', or the listening socket failed' if is_serve else ''}"]


def of_input(subcommand: str, source: Source, line: str) -> str:
    """Returns the sentence about an input that cannot be read."""
    parts = source.parts()
    if (placed := PLACED.fullmatch(line)) is not None:
        part = parts[0 if placed[1] == "catalog" else 2]
        place = part.begin + int(placed[2])
        return f"{source.at(place)}: {sentences.of_text(placed[3], source.there(place))}"
    if (certificate := CERTIFICATE.fullmatch(line)) is not None:
        begin, text = line_of(parts[1], int(certificate[1]) - 1)
        kind = certificate[2]
        if text.startswith(sentences.NO_CERTIFICATE):
            return f"{source.at(begin)}: {sentences.NOT_MADE}"
        at = place_of_fault(text) if kind in ("BadToken", "Ended", "Trailing") else 0
        return f"{source.at(begin + len(text[:at].encode()))}: {sentences.CERTIFICATES.get(kind, kind)}"
    if line.startswith("table "):
        return f"pgshard: the catalog has no table {line.removeprefix('table ')}"
    return f"pgshard: {sentences.of_input(subcommand, source.data, len(parts))}"


def line_of(part: Part, number: int) -> tuple[int, str]:
    """Returns a line of a part, by its number from 0: where it begins in the input, in bytes, and its text."""
    lines = part.data.split(b"\n")
    begin = part.begin + sum(len(line) + 1 for line in lines[:number])
    return begin, lines[number].decode("utf-8", "replace") if number < len(lines) else ""


def of_rows(source: Source, words: list[str], lines: list[str]) -> list[str]:
    """Explains rows that cannot be read or do not fit. If a name contains a newline, it is unknown which line is about
    which row."""
    catalog, rows = source.parts()[:2]
    texts = rows.data.removesuffix(b"\n").split(b"\n")
    if len(texts) != len(lines):
        return []
    columns, begin = columns_of(catalog, words), rows.begin
    found: list[str] = []
    bad = sum(line.startswith(("unreadable ", "invalid ")) for line in lines)
    for data, line in zip(texts, lines):
        if len(found) == MOST_TOLD < bad:
            return [*found, f"pgshard: and {bad - MOST_TOLD} more rows"]
        text = data.decode("utf-8", "replace")
        if (unread := UNREAD.fullmatch(line)) is not None:
            place = begin + int(unread[1])
            there = source.there(place) if int(unread[1]) < len(data) else "the end of the row"
            found.append(f"{source.at(place)}: {sentences.of_text(unread[2], there)}")
        elif (unfit := UNFIT.fullmatch(line)) is not None:
            found.append(of_unfit(source, columns, begin, text, unfit[1], unfit[2]))
        begin += len(data) + 1
    return found


def of_unfit(source: Source, columns: list[str], begin: int, row: str, fault: str, number: str | None) -> str:
    """Returns the sentence about a row that does not fit its table, at the wrong value."""
    sentence = sentences.ROWS.get(fault, fault)
    if number is None:
        return f"{source.at(begin)}: {sentence}"
    values = [match for match in VALUE.finditer(row) if match[0].strip()]
    at = values[int(number)].start() if int(number) < len(values) else 0
    at += len(row[at:]) - len(row[at:].lstrip())
    column = f"{columns[int(number)]}: " if int(number) < len(columns) else ""
    return f"{source.at(begin + len(row[:at].encode()))}: {column}{sentence}"


def columns_of(catalog: Part, words: list[str]) -> list[str]:
    """Returns the names of the columns of the table that a word names, with its schema or in public."""
    tables, _, _ = made_in(catalog.text)
    named = {name for word in words for name in (word, f"public.{word}")}
    return next((table.columns for _, table in tables if table.name in named), [])


def of_tables(source: Source, output: str) -> list[str]:
    """Returns the sentences about tables without a certificate."""
    tables, _, subscriptions = made_in(source.parts()[0].text)
    found: list[str] = []
    at = 0
    for place, table in tables:
        try:
            made, at = made_of(output, at, table.name, subscriptions)
        except Fault:
            return found
        if made.certificate is None:
            found.append(f"{at_character(source, place)}: {table.name}: {why_not(made, subscriptions)}")
    return found


def why_not(made: Made, subscriptions: list[str]) -> str:
    """Returns why a table has no certificate."""
    if made.row is None:
        is_large = made.word == "too large"
        reason = "the certificate would exceed its limits" if is_large else "the search ended without one"
        return f"neither a certificate nor a row that shows a fault was found: {reason}"
    row = f"({', '.join(made.row)})"
    if not made.owners:
        reason = "" if subscriptions else ", since the catalog has no CREATE SUBSCRIPTION"
        return f"no subscriber gets the row {row}{reason}"
    return f"{' and '.join(made.owners)} get the row {row}"


def at_character(source: Source, place: int) -> str:
    """Returns the position of a character of the first part."""
    return source.at(len(source.parts()[0].text[:place].encode("utf-8", "surrogateescape")))


def of_refusal(source: Source, line: str) -> list[str]:
    """Returns the sentence about a sharding that is refused, or a publisher that cannot be closed."""
    parts = source.parts()
    tables, publications, _ = made_in(parts[0].text)
    if line.startswith("close "):
        name = line.removeprefix("close ")
        return [f"pgshard: {sentences.CLOSINGS.get(name, name)}"]
    if line == "refused CertCount":
        lines = parts[1].data.removesuffix(b"\n")
        count = lines.count(b"\n") + 1 if lines else 0
        where = source.at(parts[1].begin)
        has = sentences.counted(len(tables), "table")
        return [f"{where}: the catalog has {has}, but the input has {sentences.counted(count, 'certificate')}"]
    for name, place in publications.items():
        where = at_character(source, place)
        missing = re.fullmatch(rf"refused PublishMissing {re.escape(name)} (\w+)", line)
        if missing is not None:
            return [f"{where}: publication {name}, which a subscription takes, does not publish {missing[1]}"]
        for _, table in tables:
            for column in table.columns:
                if line == f"refused NotCovered {name} {table.name} {column}":
                    return [f"{where}: the filter of publication {name} names column {column}, which is not in the "
                            f"replica identity of {table.name}"]
    return of_table(source, parts, tables, line)


def of_table(source: Source, parts: list[Part], tables: list[tuple[int, Table]], line: str) -> list[str]:
    """Returns the sentence about a sharding that is refused because of a table or a node of its certificate."""
    for number, (place, table) in enumerate(tables):
        if line == f"refused NoIdentity {table.name}":
            return [f"{at_character(source, place)}: the replica identity of {table.name} does not identify its rows"]
        node = re.fullmatch(rf"refused (\w+) {re.escape(table.name)} (\d+)(?: (.*))?", line)
        if node is not None and node[1] in sentences.NODES:
            begin, text = line_of(parts[1], number)
            at = place_of_node(text, int(node[2]))
            also = f": {node[3]}" if node[3] else ""
            return [f"{source.at(begin + at)}: {table.name}: {sentences.NODES[node[1]]}{also}"]
    return []
