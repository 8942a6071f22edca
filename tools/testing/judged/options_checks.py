"""Tests judge's command line, whom it regards as subscribers, and its messages if it cannot judge."""

import json
import pathlib
import shutil
import subprocess
import sys
import tempfile
import time

from programs import PGSHARD, TOOLS, judge, pgshard
from server import PROGRAMS, environment

PUBLISHER = """
    CREATE TABLE orders (id integer PRIMARY KEY, region integer);
    CREATE TABLE notes (id integer);
    CREATE TABLE drafts (id integer);
    ALTER TABLE orders REPLICA IDENTITY FULL;
    CREATE PUBLICATION europe FOR TABLE orders WHERE (region < 100);
    CREATE PUBLICATION elsewhere FOR TABLE orders WHERE (region >= 100);
    CREATE PUBLICATION nowhere FOR TABLE orders WHERE (region IS NULL);
    CREATE ROLE stranger LOGIN;
"""
SLOTS = """
    SELECT FROM pg_create_logical_replication_slot('london', 'pgoutput');
    SELECT FROM pg_create_logical_replication_slot('tokyo', 'pgoutput');
"""
WAITING = "nobody is connected to slot {}, so the server keeps its unsent changes"
LONDON = """
    CREATE TABLE orders (id integer PRIMARY KEY, region integer);
    CREATE TABLE elsewhere.unrelated (id integer);
    CREATE SUBSCRIPTION london CONNECTION '{connection}' PUBLICATION europe
        WITH (connect = false, slot_name = 'london');
    CREATE SUBSCRIPTION another CONNECTION 'host=nowhere' PUBLICATION of_another_server WITH (connect = false);
"""
TOKYO = """
    CREATE TABLE orders (id integer PRIMARY KEY, region integer);
    CREATE SUBSCRIPTION tokyo CONNECTION '{connection}' PUBLICATION elsewhere, nowhere
        WITH (connect = false, slot_name = '{slot}');
"""
SOUND = ["public.orders: sound"]
NOT_SOUND = [
    "public.orders: NOT SOUND: the row (0, NULL) goes to no subscriber",
    "    region = NULL, no filter names another column"]
NULL_ROWS = "    region IS NULL -> nobody, as (0, NULL)"
HIGH_ROWS = "    region >= 100 -> nobody, as (0, 100)"
ENDING = "tables: 1 judged, {} sound; 2 not published, which --all names"
EACH = "each publication counts as a subscriber of its own; -v subscriptions='..' names others"


def check_options(tally, server):
    """Tests all of these."""
    server.create("options", PUBLISHER)
    check_variable(tally, server)
    server.psql("options", SLOTS)
    check_subscribers(tally, server)
    check_walsenders(tally, server)
    check_recvlogical(tally, server)
    check_missing_publication(tally, server)
    server.psql("options", "SELECT pg_drop_replication_slot(slot_name) FROM pg_replication_slots "
                           "WHERE database = current_database();")
    check_locked(tally, server)
    check_seconds(tally, server)
    check_strict(tally, server)
    check_json(tally, server)
    check_catalog(tally, server)
    check_refusals(tally, server)


def check_lines(tally, what, found, lines, status):
    tally.check(what, found, "\n".join([*lines, f"status {status}", ""]))


def check_variable(tally, server):
    words = server.words("options")
    check_lines(tally, "a publication for each subscriber", judge(*words), [*SOUND, EACH, ENDING.format(1)], 0)
    for variable in "-v", "--set", "--variable=":
        given = ["subscriptions=london=europe tokyo=elsewhere"]
        given = [f"{variable}{given[0]}"] if variable.endswith("=") else [variable, *given]
        check_lines(tally, f"subscribers by {variable}", judge(*words, *given), [
            *NOT_SOUND, NULL_ROWS, "the subscribers are those of -v subscriptions", ENDING.format(0)], 1)
    check_lines(tally, "--all", judge(*words, "--all"), [
        "public.drafts: not published, so not judged", "public.notes: not published, so not judged", *SOUND, EACH,
        "tables: 1 judged, 1 sound; 2 not published"], 0)


def check_subscribers(tally, server):
    """Tests two databases with subscriptions, one of which has no slot on this server."""
    connection = f"host={server.folder} user=postgres dbname=options"
    server.create("london", "CREATE SCHEMA elsewhere;" + LONDON.format(connection=connection))
    server.create("tokyo", TOKYO.format(connection=connection, slot="tokyo_gone"))
    names = [f"host={server.folder} user=stranger dbname={name}" for name in ("london", "tokyo")]
    given = [word for name in names for word in ("--subscriber", name)]
    known = "the subscribers are those of the databases given by --subscriber"
    check_lines(tally, "--subscriber", judge(*server.words("options"), *given), [
        "subscription london is disabled", "subscription tokyo is disabled",
        "subscription tokyo has slot tokyo_gone, which is missing at the publisher", WAITING.format("tokyo"), *SOUND,
        known, ENDING.format(1)], 1)
    tally.check("--detailed-status of subscriptions", judge(
        *server.words("options"), *given, "--detailed-status").splitlines()[-1], "status 11")
    tally.check("--nagios of subscriptions", judge(
        *server.words("options"), *given, "--nagios").splitlines()[-1], "status 1")
    check_lines(tally, "one --subscriber", judge(*server.words("options"), f"--subscriber={names[0]}"), [
        "subscription london is disabled", WAITING.format("tokyo"), *NOT_SOUND, HIGH_ROWS, NULL_ROWS, known,
        ENDING.format(0)], 1)
    check_lines(tally, "a database without subscriptions", judge(
        *server.words("options"), "--subscriber", connection), [
        "none of the databases given by --subscriber has a subscription to this one"], 3)
    check_lines(tally, "no connection text", judge(*server.words("options"), "--subscriber", "london"), [
        "judge: --subscriber needs a connection string such as 'host=london dbname=shop', not london"], 2)


def check_walsenders(tally, server):
    """Tests a connected subscription, as seen by a role with the privilege to see it and by one without."""
    server.psql("london", "ALTER SUBSCRIPTION london ENABLE;")
    wait_for_walsender(server, "t")
    words = server.words("options")
    check_lines(tally, "who is connected", judge(*words), [
        WAITING.format("tokyo"), *NOT_SOUND, HIGH_ROWS, NULL_ROWS, "the subscribers are those that are connected now; "
        "nobody is connected to slot tokyo, so its subscriber does not count", ENDING.format(0)], 1)
    check_lines(tally, "who is connected, to a stranger", judge(*words, "-U", "stranger"), [
        WAITING.format("tokyo"), *SOUND, EACH, ENDING.format(1)], 1)
    server.psql("london", "ALTER SUBSCRIPTION london DISABLE;")
    wait_for_walsender(server, "f")


def wait_for_walsender(server, active, slot="london"):
    """Waits up to a minute until a client is connected to the subscription's slot, or until none is."""
    for _ in range(600):
        if server.psql("options", f"SELECT active FROM pg_replication_slots WHERE slot_name = '{slot}';") == active:
            return
        time.sleep(0.1)


def check_recvlogical(tally, server):
    """Tests a client that writes the names of options in double quotes, as psycopg2 and pgjdbc do, and names of
    publications without."""
    client = subprocess.Popen(
        [PROGRAMS / "pg_recvlogical", *server.words("options"), "--slot", "tokyo", "--start", "-f", "-",
         "-o", "proto_version=1", "-o", "publication_names=Elsewhere, nowhere"],
        stdout=subprocess.DEVNULL, stderr=subprocess.DEVNULL, env=environment())
    try:
        wait_for_walsender(server, "t", "tokyo")
        found = judge(*server.words("options"))
        for part in ("goes to no subscriber", "the subscribers are those that are connected now; nobody is connected "
                     "to slot london", "status 1"):
            tally.check(f"pg_recvlogical is connected: {part}", part if part in found else found, part)
        tally.check("pg_recvlogical is connected: its rows", "region = NULL" in found, False)
    finally:
        client.terminate()
        client.wait()
    wait_for_walsender(server, "f", "tokyo")


def check_missing_publication(tally, server):
    """Tests a subscription to a publication that does not exist. The server says what that does to its stream."""
    connection = f"host={server.folder} user=postgres dbname=options"
    server.create("missing", f"""
        CREATE SUBSCRIPTION all_of_it CONNECTION '{connection}' PUBLICATION europe, elsewhere, nowhere, gone
            WITH (connect = false, slot_name = 'tokyo');
    """)
    refused = server.refusal("options", """
        SELECT FROM pg_create_logical_replication_slot('peeked', 'pgoutput', true);
        INSERT INTO orders VALUES (1, 1);
        SELECT FROM pg_logical_slot_peek_binary_changes(
            'peeked', NULL, NULL, 'proto_version', '1', 'publication_names', 'europe,gone');
    """)
    tally.check("what the server does without a publication", 'publication "gone" does not exist' in refused, True)
    server.psql("options", "DELETE FROM orders;")
    check_lines(tally, "a publication that is not there", judge(
        *server.words("options"), "--subscriber", f"host={server.folder} user=postgres dbname=missing"), [
        "subscription all_of_it is disabled", "subscription all_of_it takes publication gone, which does not exist",
        WAITING.format("london"),
        "public.orders: REFUSED: each row passes the filters of one subscriber, but subscriber all_of_it takes "
        "publication gone, which does not exist, so the server ends its replication",
        "the subscribers are those of the databases given by --subscriber", ENDING.format(0)], 1)


def check_locked(tally, server):
    """Tests a table that another session has locked, and one that is not locked."""
    server.create("locked", """
        CREATE TABLE one (id integer PRIMARY KEY); CREATE TABLE two (id integer PRIMARY KEY CHECK (id > 0));
        CREATE PUBLICATION p FOR TABLE one, two WHERE (id > 0);
    """)
    words = ["psql", "-X", "-q", "-A", "-t", *server.words("locked")]
    holder = subprocess.Popen(
        words, stdin=subprocess.PIPE, stdout=subprocess.PIPE, encoding="utf-8", env=environment())
    holder.stdin.write("BEGIN; LOCK TABLE two IN ACCESS EXCLUSIVE MODE; SELECT 'locked';\n")
    holder.stdin.flush()
    tally.check("the lock", holder.stdout.readline(), "locked\n")
    check_lines(tally, "a table that is locked", judge(*server.words("locked")), [
        "public.one: sound", "public.two: not decided: another session holds or awaits an ACCESS EXCLUSIVE lock on it",
        EACH, "tables: 2 judged, 1 sound"], 1)
    holder.communicate("ROLLBACK;\n")
    check_lines(tally, "the table without its lock", judge(*server.words("locked")), [
        "public.one: sound", "public.two: sound", EACH, "tables: 2 judged, 2 sound"], 0)


def check_seconds(tally, server):
    """Tests a table that takes too long, with a program that does not end for it."""
    with tempfile.TemporaryDirectory() as folder:
        program = pathlib.Path(folder) / "program"
        program.write_text(f"""#!/bin/sh
input=$(cat)
case $input in *two*) while :; do :; done;; esac
printf '%s\\n' "$input" | {PGSHARD} "$@"
""")
        program.chmod(0o700)
        found = judge(*server.words("locked"), "--seconds", "2", program=str(program))
        tally.check("a table that takes too long", found.split("\n")[:-1], [
            "public.one: sound", "public.two: not decided: it takes over 2 seconds; raise --seconds", EACH,
            "tables: 2 judged, 1 sound", "status 1"])


def check_strict(tally, server):
    """Checks that --strict changes nothing if no filter fails."""
    check_lines(tally, "--strict", judge(*server.words("options"), "--strict"), [*SOUND, EACH, ENDING.format(1)], 0)


def check_json(tally, server):
    """Checks the format that docs/OUTPUT.md documents."""
    given = ["--json", "-v", "subscriptions=london=europe tokyo=elsewhere"]
    found, _, status = judge(*server.words("options"), *given).rpartition("status ")
    tally.check("the JSON of a row", (json.loads(found), status), ({
        "database": "options", "status": 1,
        "subscribers": [{"name": "london", "publications": ["europe"], "remarks": []},
                        {"name": "tokyo", "publications": ["elsewhere"], "remarks": []}],
        "subscribers_known": "the subscribers are those of -v subscriptions",
        "tables": [{"table": "public.orders", "answer": "not sound", "row": {"id": "0", "region": "NULL"},
                    "goes_to": [], "columns": ["region"], "faults": [
                        {"rows": "region IS NULL", "goes_to": [], "row": {"id": "0", "region": "NULL"}}],
                    "more_faults": 0}],
        "unpublished": ["public.drafts", "public.notes"]}, "1\n"))
    found, _, status = judge(*server.words("options"), "--json", "--explain").rpartition("status ")
    tables = json.loads(found)["tables"]
    tally.check("the JSON of regions", (tables[0]["answer"], sorted(
        (it["rows"], it["subscriber"]) for it in tables[0]["regions"])), ("sound", [
            ("region < 100", "europe"), ("region >= 100", "elsewhere"), ("region IS NULL", "nowhere")]))


def check_catalog(tally, server):
    """Checks that --catalog prints what pgshard has accepted."""
    catalog, _, status = judge(*server.words("options"), "--catalog", "orders").rpartition("status ")
    certificates = pgshard("make", text=catalog)
    answer = pgshard("check", text=f"{catalog}\n%%\n{certificates[1]}")
    tally.check("the catalog of --catalog", answer, (0, "accepted\n"))
    check_lines(tally, "--catalog of no table", judge(*server.words("options"), "--catalog", "none"), [
        "judge: --catalog none: no such table is judged by a catalog"], 2)


def check_refusals(tally, server):
    """Checks that each refusal has one line and its status."""
    words = server.words("options")
    check_lines(tally, "--copied of no table", judge(*words, "--copied", "none"), [
        "judge: --copied none: no such table is published"], 2)
    check_lines(tally, "an option without its word", judge(*words, "--partial"), [
        "judge: argument --partial: expected one argument; --help lists the options"], 2)
    check_lines(tally, "an unknown option", judge(*words, "--parts"), [
        "judge: unrecognized arguments: --parts; --help lists the options"], 2)
    check_lines(tally, "an unknown variable", judge(*words, "-v", "subscription=a"), [
        "judge: -v subscription=a: judge has no variable but subscriptions"], 2)
    check_lines(tally, "a database too many", judge(*words[:-2], "options", "postgres", "more"), [
        "judge: unexpected argument postgres; --help lists the options"], 2)
    version = (TOOLS.parent / "VERSION").read_text().strip()
    check_lines(tally, "--version", judge("--version"), [f"judge (pgshard) {version}"], 0)
    check_lines(tally, "a file that is not there", judge("none.sql"), [
        "judge: there is no file none.sql; a database is named as in: -d shop"], 2)
    with tempfile.TemporaryDirectory() as name:
        folder = pathlib.Path(name)
        check_lines(tally, "a folder", judge(name), [f"judge: {name} is a folder; a database is named as in: -d shop"], 2)
        psql = folder / "psql"
        psql.write_text("#!/bin/sh\necho '{\"version\": 140005}'\n")
        psql.chmod(0o700)
        check_lines(tally, "another version", in_folder(folder, words), [
            "judge: the server has version 14.5, and judge judges versions 15 to 18"], 4)
        shutil.copytree(TOOLS, folder / "tools", ignore=shutil.ignore_patterns("testing"))
        check_lines(tally, "no pgshard", not_built(folder), [
            "judge: the command pgshard is not found; the environment variable PGSHARD may name it"], 5)
    check_lines(tally, "no pglast", without_pglast(words), [
        "judge: pglast, which is PostgreSQL's parser as a Python library, is not installed: on Debian 12 "
        "`apt-get install python3-pglast` installs it"], 5)
    closed = subprocess.run(
        f"{TOOLS / 'judge'} {' '.join(words)} | true; echo ${{PIPESTATUS[0]}}", shell=True, executable="/bin/bash",
        capture_output=True, encoding="utf-8", env=environment() | {"PGSHARD": PGSHARD})
    tally.check("a pipe that is closed", (closed.stdout, closed.stderr), ("6\n", "judge: the output was closed\n"))


def not_built(folder):
    """Returns what judge prints for a file if there is no program with it."""
    file = folder / "catalog.sql"
    file.write_text("CREATE TABLE t (id integer PRIMARY KEY);")
    others = {name: value for name, value in environment().items() if name != "PGSHARD"}
    answer = subprocess.run(
        [folder / "tools" / "judge", file],
        stdout=subprocess.PIPE, stderr=subprocess.STDOUT, encoding="utf-8", env=others)
    return f"{answer.stdout}status {answer.returncode}\n"


def without_pglast(words):
    """Returns what judge prints if Python has only its own libraries."""
    answer = subprocess.run(
        [sys.executable, "-S", TOOLS / "judge", *words], stdout=subprocess.PIPE, stderr=subprocess.STDOUT,
        encoding="utf-8", env=environment() | {"PGSHARD": PGSHARD, "JUDGE_TRIED_SYSTEM_PYTHON": "1"})
    return f"{answer.stdout}status {answer.returncode}\n"


def in_folder(folder, words):
    """Returns what judge prints if this folder is first on the path."""
    path = {"PGSHARD": PGSHARD, "PATH": f"{folder}:{environment()['PATH']}"}
    answer = subprocess.run(
        [TOOLS / "judge", *words], stdout=subprocess.PIPE, stderr=subprocess.STDOUT, encoding="utf-8",
        env=environment() | path)
    return f"{answer.stdout}status {answer.returncode}\n"
