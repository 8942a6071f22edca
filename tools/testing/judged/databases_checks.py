"""Tests judge's answers for each database, whether the server accepts each row that is reported as NOT SOUND, and who
gets that row."""

import json
import os
import subprocess
from concurrent.futures import ThreadPoolExecutor

from judged.databases import DATABASES
from judged.meanings import MEANINGS
from judged.published import PUBLISHED
from programs import PGSHARD, TOOLS, judge, patience
from server import PROGRAMS, environment

# The number of a table's regions whose row is inserted.
MOST_FAULTS = 4


def check_databases(tally, server):
    """Tests all databases."""
    cases = [*DATABASES, *PUBLISHED, *MEANINGS]
    for case in cases:
        server.create(case.name, case.setup)
    with ThreadPoolExecutor(len(os.sched_getaffinity(0))) as threads:
        answers = list(threads.map(lambda case: answers_of(server, case), cases))
    for case, (report, status, lines) in zip(cases, answers):
        check_case(tally, server, case, report, status, lines)


def answers_of(server, case):
    """Returns judge's answers for a case: as JSON, the status, and as lines if some of them are compared."""
    report, status = report_of(server, case.name, [*case.words, *(["--explain"] if case.regions else [])])
    return report, status, judge(*server.words(case.name), *case.words) if case.told else ""


def report_of(server, database, words):
    """Returns judge's answers as JSON."""
    answer = subprocess.run(
        [TOOLS / "judge", "--json", *patience(words), *server.words(database), *words],
        stdout=subprocess.PIPE, encoding="utf-8", env=environment() | {"PGSHARD": PGSHARD})
    return json.loads(answer.stdout), answer.returncode


def check_case(tally, server, case, report, status, lines):
    """Tests a database: the answers, additional lines, the status, and the rows."""
    found = {it["table"].removeprefix("public."): answer_of(it) for it in report["tables"]}
    tally.check(f"{case.name}: what is said of each table", found, case.truth)
    tally.check(f"{case.name}: the status", status, status_of(case.truth))
    for part in case.told:
        tally.check(f"{case.name}: what is told", part if part in lines else lines, part)
    for table in report["tables"]:
        if "row" in table and table["table"].removeprefix("public.") not in case.refusing:
            check_row(tally, server, case, report, table["table"], table["row"], table["goes_to"])
            for fault in [it for it in table.get("faults", []) if it["row"] is not None][:MOST_FAULTS]:
                server.psql(case.name, f"DELETE FROM {table['table']};")
                check_row(tally, server, case, report, table["table"], fault["row"], fault["goes_to"])
        if table["table"].removeprefix("public.") in case.regions:
            check_regions(tally, server, case, table, report)
    for statement, message in case.fails:
        found = server.refusal(case.name, statement)
        tally.check(f"{case.name}: why the server refuses {statement}", message if message in found else found, message)


def check_regions(tally, server, case, table, report):
    """Checks the regions, in any order. Each of some rows has to be in one region, whose subscriber gets it."""
    name = table["table"]
    found = [(it["rows"], it["subscriber"]) for it in table["regions"]]
    expected = case.regions[name.removeprefix("public.")]
    if expected:
        tally.check(f"{case.name}: the regions of {name}", sorted(found), sorted(expected))
    server.psql(case.name, f"INSERT INTO {name} {case.rows[name.removeprefix('public.')]};")
    counted = " + ".join(f"(({rows.replace('all rows', 'true')}) IS TRUE)::integer" for rows, _ in found)
    tally.check(f"{case.name}: rows of {name} that are not in one region", server.psql(
        case.name, f"SELECT count(*) FROM {name} WHERE {counted} <> 1;"), "0")
    for rows, subscriber in found:
        publications = next(it["publications"] for it in report["subscribers"] if it["name"] == subscriber)
        filters = filters_of(server, case.name, name, publications)
        tally.check(f"{case.name}: rows of {name} where {rows} that {subscriber} does not get", server.psql(
            case.name, f"SELECT count(*) FROM {name} WHERE ({rows}) AND ({filters}) IS NOT TRUE;"), "0")


def answer_of(table):
    if table["answer"] != "not sound":
        return table["answer"]
    return " ".join(["not sound:", *sorted(table["goes_to"])])


def status_of(truth):
    answers = {it.split(":")[0] for it in truth.values()}
    if answers & {"not sound", "not decided", "refused"}:
        return 1
    return 3 if "not read" in answers else 0


def check_row(tally, server, case, report, name, row, goes_to):
    """Inserts the row, and checks what the server sends of it under each subscriber's publications."""
    columns = ", ".join(f'"{column}"' for column in row)
    server.psql(case.name, "SELECT FROM pg_create_logical_replication_slot('judged', 'pgoutput');")
    server.psql(case.name, f"""
        SET timezone = 'UTC';
        INSERT INTO {name} ({columns}) OVERRIDING SYSTEM VALUE VALUES ({', '.join(row.values())});
    """)
    takers = [it["name"] for it in report["subscribers"] if is_sent(server, case.name, it["publications"])]
    server.psql(case.name, "SELECT FROM pg_drop_replication_slot('judged');")
    tally.check(f"{case.name}: who gets the row {list(row.values())} of {name}", sorted(takers), sorted(goes_to))


def is_sent(server, database, publications):
    """Returns whether the server sends an Insert message to a subscriber of these publications."""
    names = ",".join(f'"{it}"' for it in publications)
    return server.psql(database, f"""
        SELECT count(*) FROM pg_logical_slot_peek_binary_changes(
            'judged', NULL, NULL, 'proto_version', '1', 'publication_names', '{names}')
        WHERE get_byte(data, 0) = ascii('I');
    """) != "0"


def filters_of(server, database, table, publications):
    """Returns the server's own text of a table's filters in some publications, as one condition."""
    listed = ", ".join(f"'{it}'" for it in publications)
    texts = server.psql(database, f"""
        SELECT coalesce(json_agg(coalesce(rowfilter, 'true')), '[]') FROM pg_publication_tables
        WHERE pubname IN ({listed}) AND format('%s.%s', schemaname, tablename) = '{table}';
    """)
    return " OR ".join(f"({it}) IS TRUE" for it in json.loads(texts)) or "false"


def check_pgbench(tally, server):
    """Tests the tables that pgbench creates, split by account. The history table has no key, and its account may be
    NULL."""
    server.psql("postgres", "CREATE DATABASE bench;")
    words = [PROGRAMS / "pgbench", "-i", "-q", *server.words("bench")[:-2], "bench"]
    subprocess.run([str(word) for word in words], check=True, stderr=subprocess.DEVNULL, env=environment())
    server.psql("bench", """
        ALTER TABLE pgbench_history REPLICA IDENTITY FULL;
        CREATE PUBLICATION even FOR TABLE pgbench_accounts WHERE (aid % 2 = 0), pgbench_history WHERE (aid % 2 = 0),
            pgbench_branches, pgbench_tellers WHERE (tid BETWEEN 1 AND 5);
        CREATE PUBLICATION odd FOR TABLE pgbench_accounts WHERE (aid % 2 <> 0), pgbench_history WHERE (aid % 2 <> 0),
            pgbench_branches, pgbench_tellers WHERE (tid NOT BETWEEN 1 AND 5);
    """)
    report, status = report_of(server, "bench", ["--copied", "pgbench_branches"])
    found = {it["table"]: answer_of(it) for it in report["tables"]}
    tally.check("what judge says of pgbench's tables", (found, status), ({
        "public.pgbench_accounts": "sound", "public.pgbench_branches": "sound",
        "public.pgbench_history": "not sound:", "public.pgbench_tellers": "sound"}, 1))
