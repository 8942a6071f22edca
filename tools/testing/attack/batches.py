"""A database of random designs: made, judged, filled, and compared with its slots."""

import collections
import random
import re
from collections.abc import Callable, Iterator
from dataclasses import dataclass, field

import psycopg2

from .comparison import WANTED, Finding, Judged, differences, of_not_sound
from .designs import NUMBER, OWN_TYPES, SUBSCRIBERS, Design
from .judgement import Verdict, judged
from .moves import moved
from .oracle import HELPERS, Database, Subscriber
from .rows import rows_near, rows_of

# How often a table that the server refuses is generated again.
DRAWS = 40
ROWS, MOST_ROWS = 330, 1500
# How many more batches of rows are inserted while a sound table has too few rows, since its constraints refuse most.
LOTS = 4
LOCALES = {
    "": 6, "ENCODING 'UTF8' LC_COLLATE 'C.UTF-8' LC_CTYPE 'C.UTF-8'": 2,
    "ENCODING 'UTF8' LOCALE_PROVIDER icu ICU_LOCALE 'en-US' LC_COLLATE 'C' LC_CTYPE 'C'": 2,
    "ENCODING 'UTF8' LOCALE_PROVIDER icu ICU_LOCALE 'de-u-ks-level1' LC_COLLATE 'C' LC_CTYPE 'C.UTF-8'": 1,
    "ENCODING 'LATIN1' LC_COLLATE 'C' LC_CTYPE 'C'": 1, "ENCODING 'EUC_JP' LC_COLLATE 'C' LC_CTYPE 'C'": 1,
    "ENCODING 'SQL_ASCII' LC_COLLATE 'C' LC_CTYPE 'C'": 1,
}
SETTINGS = (
    "timezone = 'Asia/Kolkata'", "timezone = 'America/New_York'", "datestyle = 'German'", "datestyle = 'SQL, DMY'",
    "intervalstyle = 'iso_8601'", "standard_conforming_strings = off", "bytea_output = 'escape'",
        "extra_float_digits = -10",
    "quote_all_identifiers = on", "search_path = 'shadows, pg_catalog, public'", "transform_null_equals = on",
    "array_nulls = off", "client_encoding = 'LATIN1'", "default_transaction_isolation = 'serializable'")
SHADOWS = (
    "CREATE SCHEMA shadows",
    "CREATE FUNCTION shadows.lower(text) RETURNS text LANGUAGE sql IMMUTABLE AS 'SELECT ''a''::text'",
    "CREATE FUNCTION shadows.length(text) RETURNS integer LANGUAGE sql IMMUTABLE AS 'SELECT 1'",
    "CREATE FUNCTION shadows.abs(integer) RETURNS integer LANGUAGE sql IMMUTABLE AS 'SELECT 1'",
    "CREATE OPERATOR shadows.< (LEFTARG = integer, RIGHTARG = integer, FUNCTION = int4gt)",
    "CREATE OPERATOR shadows.= (LEFTARG = text, RIGHTARG = text, FUNCTION = textne)")
# The message that judge prints if a row is outside its partition's bounds.
ITSELF = re.compile(r"INSERT into (\S+) itself takes it")
Draw = Callable[[str], Design]
NO_VERDICT = Verdict("no judgement")


@dataclass
class Result:
    """The result of a database."""

    findings: list[Finding] = field(default_factory=list)
    counts: collections.Counter[str] = field(default_factory=collections.Counter)
    setup: list[str] = field(default_factory=list)
    verdicts: list[str] = field(default_factory=list)


@dataclass
class Place:
    """The server on which a database is made, and the program that judges it."""

    words: str
    program: str

    def psql_words(self, database: str) -> list[str]:
        """Returns the arguments as judge takes them."""
        pairs = (it.split("=") for it in self.words.split())
        options = {"host": "-h", "user": "-U", "port": "-p"}
        return [word for name, value in pairs for word in (options[name], value)] + ["-d", database]


def setup_of(chance: random.Random, name: str) -> tuple[list[str], list[str]]:
    """Returns the statements that create a database, and the first statements in it."""
    locale = chance.choices(list(LOCALES), list(LOCALES.values()))[0]
    some = [it for it in SETTINGS if chance.random() < 0.12]
    making = [f"CREATE DATABASE {name} TEMPLATE template0 STRATEGY file_copy {locale}"]
    making += [f"ALTER DATABASE {name} SET {it.replace(chr(39), '') if 'search_path' in it else it}" for it in some]
    return making, [*SHADOWS, *OWN_TYPES, HELPERS]


def loop(place: Place, name: str) -> tuple[str, ...]:
    """Returns a foreign server through which a foreign table is another table of the same database."""
    options = dict(it.split("=") for it in place.words.split()) | {"dbname": name}
    listed = ", ".join(f"{option} '{value}'" for option, value in options.items() if option != "user")
    user = options.get("user", "")
    return (
        "CREATE EXTENSION postgres_fdw",
        f"CREATE SERVER attack_loop FOREIGN DATA WRAPPER postgres_fdw OPTIONS ({listed})",
        "CREATE USER MAPPING FOR CURRENT_USER SERVER attack_loop "
        f"OPTIONS (user '{user}', password_required 'false')")


def attack(
    place: Place, name: str, seed: int, draw: Callable[[random.Random], Draw], count: int, locale: str | None = None,
) -> Result:
    """Creates a database of this many designs, and compares judge's answers with its slots. If a locale is given, the
    database has no random settings, and designs that are refused are not generated again."""
    chance, result = random.Random(seed), Result()
    making, first = setup_of(chance, name)
    if locale is not None:
        making = [f"CREATE DATABASE {name} TEMPLATE template0 STRATEGY file_copy {locale}"]
    control = Database(place.words, "postgres")
    for statement in making:
        control.run(statement)
    database = Database(place.words, name)
    result.setup = [*making, f"\\connect {name}"]
    try:
        database.run("SET statement_timeout = '300s'")
        database.run("SET client_min_messages = error")
        for statement in (*first, *loop(place, name)):
            if fault := database.fault([statement]):
                result.counts[f"not made: {fault}"] += 0
        designs = list(made(database, draw(chance), count, result, DRAWS if locale is None else 1))
        compare(place, database, chance, designs, result)
    finally:
        database.close()
        control.run(f"DROP DATABASE {name} WITH (FORCE)")
        control.connection.close()
    return result


def made(database: Database, draw: Draw, count: int, result: Result, draws: int) -> Iterator[Design]:
    """Yields designs that the server accepts."""
    for number in range(count):
        for _ in range(draws):
            design = draw(f"d{number}")
            fault = database.fault(design.statements())
            if fault is None:
                result.counts["designs"] += 1
                yield design
                break
            result.counts[f"the attack itself fails at {design.name}: {fault}" if draws == 1 else "drawn again"] += 1


def compare(place: Place, database: Database, chance: random.Random, designs: list[Design], result: Result) -> None:
    """Judges the designs, fills their tables, and compares."""
    takers: dict[str, list[str]] = {f"s{it}": [] for it in range(SUBSCRIBERS)}
    for design in designs:
        for publication in design.publications:
            if publication.taker is not None:
                takers[f"s{publication.taker}"].append(publication.name)
    judgement = judged(place.program, place.psql_words(database.name), takers)
    if judgement.fault is not None:
        result.counts["no judgement"] += 1
        result.findings.append(Finding("no judgement", judgement.fault, NO_VERDICT, designs[0]))
        return
    database.open_slots([Subscriber(name, names) for name, names in takers.items()])
    tables: list[Judged] = []
    for design in designs:
        tables.extend(filled(database, chance, design, judgement.verdicts))
    told = [(it, *insert_told(database, it)) for it in tables if it.verdict.row is not None]
    database.listen()
    for table in tables:
        count_table(database, table, result)
        result.verdicts.append(f"{database.name} {table.name} ({len(table.rows)} rows): {table.verdict.words()}")
        result.findings.extend(differences(database, table))
    for table, number, refusal in told:
        result.findings.extend(of_not_sound(database, table, number, refusal))
    wrong = {it.design.name for it in result.findings}
    right = [it for it in tables if it.verdict.answer == "sound" and it.design.name not in wrong]
    result.findings.extend(moved(database, chance, right))


def filled(database: Database, chance: random.Random, design: Design, verdicts: dict[str, Verdict]) -> Iterator[Judged]:
    """Fills a design's tables. Each row belongs to the judged table that contains it."""
    found = {name: Judged(name, design, verdict) for name, verdict in verdicts.items()
             if name.startswith((f"{design.name}.", f"{design.name}_more."))}
    for table in found.values():
        table.is_partitioned = database.run("SELECT relkind = 'p' FROM pg_class WHERE oid = %s::regclass",
            [table.name])[0][0]
    database.insert(design, list(rows_of(chance, design, ROWS)))
    set_rows(database, design, found)
    for _ in range(LOTS):
        wanting = [it for it in found.values() if has_few(it)]
        if not wanting:
            break
        near = [it for table in wanting for it in rows_near(chance, design, table.source, table.rows, MOST_ROWS)]
        targets = (design.targets if design.table in {it.name for it in wanting} else []) or [it.name for it in wanting]
        database.insert(design, near or list(rows_of(chance, design, MOST_ROWS, targets)))
        set_rows(database, design, found)
    for table in found.values():
        table.leaves = leaves_of(database, table.name)
        yield table


def has_few(table: Judged) -> bool:
    """Whether a sound table with random rows has fewer rows than it should have."""
    return table.verdict.answer == "sound" and not table.design.rows and len(table.rows) < WANTED


def set_rows(database: Database, design: Design, found: dict[str, Judged]) -> None:
    """Assigns rows to each judged table of a design."""
    for table in found.values():
        table.rows = []
    rows = (f"SELECT {NUMBER}, format('%s.%s', n.nspname, c.relname) FROM {design.table} AS r "
            "JOIN pg_class c ON c.oid = r.tableoid JOIN pg_namespace n ON n.oid = c.relnamespace")
    root = found.get(design.table)
    for number, leaf in database.run(rows):
        owner = found.get(leaf) or (root if root is not None and root.is_partitioned else None)
        if owner is not None:
            owner.rows.append(number)


def leaves_of(database: Database, table: str) -> list[str]:
    """The tables that store a table's rows: its partitions, or itself."""
    found = database.run(
        "SELECT relid::regclass::text FROM pg_partition_tree(%s) WHERE isleaf AND relid IN "
        "(SELECT oid FROM pg_class WHERE relkind = 'r') ORDER BY 1", [table])
    return [str(it) for it, in found] or [table]


def insert_told(database: Database, table: Judged) -> tuple[int, str | None]:
    """Inserts the row that judge reports, with a number. Returns the number, and the server's reason if it refuses the
    row."""
    number = database.next_number
    database.next_number += 1
    row = {**(table.verdict.row or {}), NUMBER: str(number)}
    columns = ", ".join(quoted(it) for it in row)
    statement = f"INSERT INTO {target_of(table)} ({columns}) OVERRIDING SYSTEM VALUE VALUES ({', '.join(row.values())})"
    try:
        with database.as_told():
            database.run(statement)
    except psycopg2.Error as fault:
        return number, str(fault).splitlines()[0]
    database.note(number)
    return number, None


def quoted(name: str) -> str:
    """Returns a name as it is written in SQL."""
    doubled = name.replace('"', '""')
    return f'"{doubled}"'


def target_of(table: Judged) -> str:
    """Returns the table into which the row is inserted: the partition, if the server accepts the row only there."""
    found = (ITSELF.match(it) for it in table.verdict.remarks)
    return next((it[1] for it in found if it is not None), table.name)


def count_table(database: Database, table: Judged, result: Result) -> None:
    """Counts the answers, and the tables with a row that goes to the wrong subscribers."""
    result.counts[table.verdict.answer] += 1
    heard = database.heard
    is_bad = any(it in heard.failed or len(heard.takers.get(it, ())) != 1 for it in table.rows)
    result.counts[f"{table.verdict.answer}, with a bad row"] += is_bad
    if table.verdict.answer == "sound":
        result.counts["rows of tables that are sound"] += len(table.rows)
        result.counts[f"sound, with fewer than {WANTED} rows"] += has_few(table) and bool(table.rows)
        result.counts["sound, and the server takes no row"] += has_few(table) and not table.rows
