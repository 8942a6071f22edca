"""Tests databases and filters as people have them: how many of them judge decides, and whether rows on the server
contradict it.

Rows have values at the limits of their types, and random ones; the server itself evaluates all filters for each row.
"""

import json
import random
import re
import subprocess

from judged.edges import EDGES, RANGES
from judged.lists import parts_of
from judged.people import APPLICATIONS, Application
from judged.people_forms import TOPICS, Topic
from programs import PGSHARD, TOOLS, patience
from server import Server, environment
from tally import Tally

ROWS = 120
# The most tables of a database, and the most filters that the server accepts, that may be left without a verdict.
UNDECIDED_TABLES = 0
UNDECIDED_FORMS = 8
SHORT = {"integer": "int4", "bigint": "int8", "smallint": "int2", "boolean": "bool", "double": "float8", "real": "float4",
         "serial": "int4", "bigserial": "int8", '"char"': "char"}
# Values that filters name, in addition to the extreme values of the types.
NAMED = {
    "text": ["'eu'", "'DE'", "'de'", "'a@eu.com'", "'A1'", "'AB'", "'B'", "'n'", "'m'", "'admin'", "'Admin'", "'x.jpg'", "'+491'", "'+43'"],
    "int4": ["3", "4", "5", "100", "-3"], "int8": ["4194304", "1000", "999"], "date": [
        "'2023-12-31'", "'2024-01-01'", "'2024-05-31'", "'2024-06-01'", "'2000-01-01'"],
    "timestamp": ["'2024-01-01'", "'2023-12-31 23:59:59.999999'", "'2024-06-01'", "'2024-05-31 12:00'", "'2024-01-06 12:00'"],
    "jsonb": ["'{\"region\": \"eu\"}'", "'{\"kind\": \"b\"}'", "'{\"on\": true}'", "'{\"tenant\": 5}'"],
    "inet": ["'10.0.0.1'", "'10.1.0.1'", "'192.168.0.1'", "'128.0.0.0/1'"], "cidr": ["'10.0.0.0/9'"],
    "numeric": ["0", "1", "99.99", "100", "5.5", "4"], "_int4": ["'{}'", "'{1}'", "'{1,2}'", "'{5}'", "'{NULL}'", "'{1,2,3,4}'"],
}
# Functions that continue if the server fails: the value of a filter for a row, the rows for which not exactly one
# filter is TRUE, and whether a statement is refused.
PREPARED = """
    CREATE FUNCTION told(filter text, source text, number integer) RETURNS boolean LANGUAGE plpgsql AS $body$
    DECLARE found boolean;
    BEGIN
        EXECUTE format('SELECT (%s) IS TRUE FROM %s WHERE row_number = %s', filter, source, number) INTO found;
        RETURN found;
    EXCEPTION WHEN OTHERS THEN RETURN NULL;
    END $body$;
    CREATE FUNCTION added(statement text) RETURNS boolean LANGUAGE plpgsql AS $body$
    BEGIN EXECUTE statement; RETURN true; EXCEPTION WHEN OTHERS THEN RETURN false; END $body$;
    CREATE FUNCTION amiss(one text, others text[], source text) RETURNS text LANGUAGE plpgsql AS $body$
    DECLARE found text;
    BEGIN
        EXECUTE format('SELECT string_agg(row_number::text, '' '') FROM %s WHERE %s <> 1', source, one) INTO found;
        RETURN found;
    EXCEPTION WHEN OTHERS THEN
        EXECUTE format('SELECT string_agg(row_number::text, '' '') FROM (SELECT row_number, (
            SELECT sum(told(it, %L, row_number)::integer) FROM unnest(%L::text[]) AS it) AS passed FROM %s) AS r
            WHERE passed <> 1', source, others, source) INTO found;
        RETURN found;
    END $body$;
"""


def check_people(tally: Tally, server: Server) -> None:
    """Tests both."""
    undecided = [it for application in APPLICATIONS for it in check_application(tally, server, application)]
    tally.check("tables of people that have no verdict", undecided[UNDECIDED_TABLES:], [])
    forms = [it for topic in TOPICS for it in check_topic(tally, server, topic)]
    tally.check("forms of people that have no verdict", forms[UNDECIDED_FORMS:], [])


def answers_of(server: Server, database: str) -> dict[str, str]:
    """Returns judge's answer for each table of a database."""
    answer = subprocess.run(
        [TOOLS / "judge", "--json", *patience([]), *server.words(database)], stdout=subprocess.PIPE, encoding="utf-8",
        env=environment() | {"PGSHARD": PGSHARD})
    return {it["table"].removeprefix("public."): it["answer"] for it in json.loads(answer.stdout)["tables"]}


def check_application(tally: Tally, server: Server, application: Application) -> list[str]:
    """Tests a database, in which each table has a publication for each filter. Returns the tables without a verdict."""
    database = f"people_{application.name}"
    statements = [f"ALTER DATABASE {database} SET client_min_messages = error;", application.before, PREPARED]
    for table, (columns, filters) in application.tables.items():
        statements.append(f"CREATE TABLE {table} ({columns}, row_number integer); ALTER TABLE {table} REPLICA IDENTITY FULL;")
        statements += [f"CREATE PUBLICATION {table}_{place} FOR TABLE {table} WHERE ({it});" for place, it in enumerate(filters)]
    server.create(database, "\n".join(statements))
    answers = answers_of(server, database)
    for table, (columns, filters) in application.tables.items():
        fill(server, database, table, columns)
    asked = [(table, filters, table) for table, (_, filters) in application.tables.items() if answers[table] == "sound"]
    check_rows(tally, server, database, asked)
    return [f"{application.name}.{table}: {it}" for table, it in answers.items() if it not in ("sound", "not sound", "refused")]


def check_topic(tally: Tally, server: Server, topic: Topic) -> list[str]:
    """Tests the filters of a topic. Each has a table with one publication of the rows for which it is true, and one of
    the others, whose filter is NOT of the first if the table has no NULL. Returns the filters without a verdict."""
    database = f"forms_{topic.name}"
    server.create(database, f"ALTER DATABASE {database} SET client_min_messages = error; {PREPARED} CREATE TABLE source "
                            f"({topic.columns}, row_number integer); CREATE PUBLICATION trial;")
    said = server.psql(database, "".join(
        f"SELECT added($it$ALTER PUBLICATION trial SET TABLE source WHERE ({it})$it$);" for it in topic.filters)).split("\n")
    taken = [it for it, is_taken in zip(topic.filters, said) if is_taken == "t"]
    server.psql(database, "DROP PUBLICATION trial;" + "".join(
        statement for place, it in enumerate(taken) for statement in statements_of(topic, place, it)))
    answers = answers_of(server, database)
    fill(server, database, "source", topic.columns)
    asked = []
    for place, filter in enumerate(taken):
        filled = " AND ".join(f"{it} IS NOT NULL" for it in named(topic, filter)) if place % 2 == 0 else "true"
        source = f"(SELECT * FROM source WHERE {filled or 'true'}) AS s"
        if answers[f"t{place:03d}"] == "sound":
            asked.append((source, [filter, other(place, filter)], filter))
    check_rows(tally, server, database, asked)
    return [f"{it}: {answers[f't{place:03d}']}" for place, it in enumerate(taken)
            if answers[f"t{place:03d}"] not in ("sound", "not sound")]


def statements_of(topic: Topic, place: int, filter: str) -> list[str]:
    """Returns the statements for a filter's table and its two publications."""
    strict = named(topic, filter) if place % 2 == 0 else set()
    columns = ", ".join(it + (" NOT NULL" if it.split()[0] in strict else "") for it in parts_of(topic.columns))
    name = f"t{place:03d}"
    return [f"CREATE TABLE {name} (id integer, {columns}); ALTER TABLE {name} REPLICA IDENTITY FULL;",
            f"CREATE PUBLICATION {name}_p FOR TABLE {name} WHERE ({filter});",
            f"CREATE PUBLICATION {name}_q FOR TABLE {name} WHERE ({other(place, filter)});"]


def other(place: int, filter: str) -> str:
    return f"NOT ({filter})" if place % 2 == 0 else f"({filter}) IS NOT TRUE"


def named(topic: Topic, filter: str) -> set[str]:
    """Returns the columns that a filter names."""
    plain = re.sub(r"'[^']*'", "", filter)
    return {it.split()[0] for it in parts_of(topic.columns) if re.search(rf"\b{it.split()[0]}\b", plain)}


def fill(server: Server, database: str, table: str, columns: str) -> None:
    """Inserts random rows, the same each time; the server leaves out those that its constraints refuse."""
    chance = random.Random(f"{database}.{table}")
    listed = [it.split() for it in parts_of(columns) if not it.startswith(("CHECK", "PRIMARY"))]
    given = [it for it in listed if "GENERATED" not in it]
    statements = []
    for number in range(ROWS):
        values = ", ".join([*(value_of(it, chance) for it in given), str(number)])
        names = ", ".join([*(it[0] for it in given), "row_number"])
        statements.append(f"SELECT added($row$INSERT INTO {table} ({names}) VALUES ({values})$row$);")
    server.psql(database, "BEGIN;" + "".join(statements) + "COMMIT;")


def value_of(column: list[str], chance: random.Random) -> str:
    """Returns a value of a column, which is sometimes NULL."""
    type = column[1].partition("(")[0].rstrip(",")
    kind = SHORT.get(type, type)
    kind = {"varchar": "text", "char": "text" if column[1] != '"char"' else "char", "integer[]": "_int4", "text[]": "_text"}.get(kind, kind)
    ranged = [it.rpartition("::")[0] for it in RANGES if it.endswith(f"::{kind}")]
    listed = [it for it in EDGES.get(kind, ranged) if "(" not in it or it.startswith("'")] + NAMED.get(kind, [])
    if not listed:
        listed = ["'new'", "'open'", "'closed'"] if kind == "state" else ["'{}'"]
    if kind in ("int4", "int8") and chance.random() < 0.4:
        return str(chance.randrange(-2000, 2000))
    return "NULL" if chance.random() < 0.1 else chance.choice(listed)


def check_rows(tally: Tally, server: Server, database: str, asked: list[tuple[str, list[str], str]]) -> None:
    """Checks that no row of a table that judge calls sound goes to nobody or to several. Each table is given with its
    filters and what it is. A row for which a filter fails ends the replication, and does not count."""
    statements = []
    for source, filters, _ in asked:
        counted = " + ".join(f"(({it}) IS TRUE)::integer" for it in filters)
        listed = ", ".join(f"$f${it}$f$" for it in filters)
        statements.append(f"SELECT coalesce(amiss($c${counted}$c$, ARRAY[{listed}], $s${source}$s$), '');")
    found = server.psql(database, "".join(statements)).split("\n") if statements else []
    for (_, _, what), rows in zip(asked, found):
        tally.check(f"{database}: rows that {what} sends to nobody or to several", rows.split()[:3], [])
