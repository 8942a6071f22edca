"""Tests judge for every database of a server, and judge --watch, as shown in docs/JUDGING.md."""

import json
import re
import signal
import subprocess
from typing import Any

from programs import PGSHARD, TOOLS, judge
from server import Server, environment, server
from tally import Tally

SHOP = """
    CREATE TABLE orders (id integer PRIMARY KEY, region integer);
    ALTER TABLE orders REPLICA IDENTITY FULL;
    CREATE PUBLICATION europe FOR TABLE orders WHERE (region < 100);
    CREATE PUBLICATION elsewhere FOR TABLE orders WHERE (region >= 100);
    CREATE PUBLICATION nowhere FOR TABLE orders WHERE (region IS NULL);
"""
STAFF = "CREATE TABLE people (id integer PRIMARY KEY); CREATE PUBLICATION p FOR TABLE people WHERE (id > 0);"
EACH = "each publication counts as a subscriber of its own; -v subscriptions='..' names others"
DATABASES = f"""\
database postgres: nothing is published
database shop:
    public.orders: sound
    {EACH}
    tables: 1 judged, 1 sound
database staff's:
    public.people: NOT SOUND: the row (0) goes to no subscriber
        id = 0
        id < 1 -> nobody, as (0)
    {EACH}
    tables: 1 judged, 0 sound
"""
NAGIOS = ("PGSHARD CRITICAL - shop: 1 table, 1 sound; staff's: 1 table, 0 sound; NOT SOUND: public.people | "
          "databases=2 tables=2 sound=1 not_sound=1 refused=0 not_decided=0 not_read=0 failing=0 not_published=0 "
          "findings=0\nstatus 2\n")
# Changes to the shop, each with what judge then prints.
CHANGES = [
    ("DROP PUBLICATION nowhere", """\
TIME public.orders: sound -> NOT SOUND
    public.orders: NOT SOUND: the row (0, NULL) goes to no subscriber
        region = NULL, no filter names another column
        region IS NULL -> nobody, as (0, NULL)
"""),
    ("SELECT FROM pg_create_logical_replication_slot('tokyo', 'pgoutput')", """\
TIME nobody is connected to slot tokyo, so the server keeps its unsent changes
"""),
    ("SELECT pg_drop_replication_slot('tokyo')", """\
TIME no longer: nobody is connected to slot tokyo, so the server keeps its unsent changes
"""),
    ("CREATE PUBLICATION nowhere FOR TABLE orders WHERE (region IS NULL)", """\
TIME public.orders: NOT SOUND -> sound
    public.orders: sound
"""),
    ("CREATE TABLE more (id integer PRIMARY KEY); CREATE PUBLICATION whole FOR TABLE more", """\
TIME public.more: not published -> sound
    public.more: sound
"""),
    ("DROP TABLE more", "TIME public.more: sound -> not published\n"),
]
# May be printed instead of the last line: judge may look while the table is being dropped.
LOCKED = """\
TIME public.more: sound -> not decided
    public.more: not decided: another session holds or awaits an ACCESS EXCLUSIVE lock on it
TIME public.more: not decided -> not published
"""


def check_many(tally: Tally) -> None:
    """Runs a server with some databases."""
    with server() as started:
        started.psql("postgres", "CREATE DATABASE closed; ALTER DATABASE closed ALLOW_CONNECTIONS false;")
        started.create("shop", SHOP)
        started.create('"staff\'s"', STAFF)
        check_databases(tally, started)
        check_watch(tally, started)
        check_connections(tally, started)
    document = (TOOLS.parent / "docs" / "JUDGING.md").read_text()
    tally.check("what --databases says in docs/JUDGING.md", DATABASES in document, True)
    shown = "".join(said.replace("TIME", "2026-11-27T22:40:0XZ") for _, said in CHANGES[:2])
    tally.check("what --watch says in docs/JUDGING.md", shown in re.sub(r"(T22:40:0)\dZ", r"\1XZ", document), True)


def check_databases(tally: Tally, started: Server) -> None:
    """Tests all output formats."""
    words = ["--databases", "-h", started.folder, "-U", "postgres"]
    tally.check("--databases", judge(*words), f"{DATABASES}status 1\n")
    tally.check("--databases --nagios", judge(*words, "--nagios"), NAGIOS)
    found, _, status = judge(*words, "--json").rpartition("status ")
    report = json.loads(found)
    tally.check("--databases --json", (status, report["status"], [
        (it["database"], it["status"], [table["answer"] for table in it["tables"]]) for it in report["databases"]]), (
            "1\n", 1, [("postgres", 1, []), ("shop", 0, ["sound"]), ("staff's", 1, ["not sound"])]))
    metrics = started.folder / "metrics"
    judge(*words, "--prometheus", metrics)
    text = metrics.read_text()
    tally.check("--databases --prometheus", [text.count(it) for it in (
        "# TYPE pgshard_tables gauge", 'answer="sound"} 1', "pgshard_judge_status 1")], [1, 2, 1])
    for given in ["--copied", "t"], ["-v", "subscriptions=a=b"], ["--with", "f"], ["--subscriber", "host=x"]:
        tally.check(f"--databases {given[0]}", judge(*words, *given), (
            f"judge: {given[0]} cannot be combined with --databases\nstatus 2\n"))


def check_connections(tally: Tally, started: Server) -> None:
    """Tests the other ways to specify the server, and a database that no longer accepts connections."""
    folder = started.folder
    for given in f"host={folder} user=postgres dbname=shop", f"postgresql://postgres@/shop?host={folder}":
        found = judge("--databases", "-d", given)
        tally.check(f"--databases -d {given.partition('/')[0]}", found, f"{DATABASES}status 1\n")
    started.psql("postgres", "ALTER DATABASE shop CONNECTION LIMIT 0; CREATE ROLE stranger LOGIN;")
    found = judge("--databases", "-h", started.folder, "-U", "stranger")
    part = ("database shop:\n    psql ended with status 2, so nothing is judged\ndatabase staff's:\n"
            "    public.people: NOT SOUND")
    tally.check("a database that takes no connection", part if part in found else found, part)


def check_watch(tally: Tally, started: Server) -> None:
    """Tests what is printed first, what is printed for each change, and that the final status is that of the last
    answer."""
    process = watching(started, "--watch", "0.2")
    tally.check("--watch at first", lines_of(process, 3), f"public.orders: sound\n{EACH}\ntables: 1 judged, 1 sound\n")
    for statement, said in CHANGES:
        started.psql("shop", statement)
        tally.check(f"--watch after {statement}", change_of(process, said), said)
    process.send_signal(signal.SIGINT)
    tally.check("the end of --watch", (process.wait(60), process.communicate()[0]), (0, ""))
    process = watching(started, "--watch", "0.2", "--json")
    tally.check("--watch --json at first", json.loads(lines_of(process, 1))["status"], 0)
    started.psql("shop", "DROP PUBLICATION nowhere")
    found: dict[str, Any] = json.loads(lines_of(process, 1))
    tally.check("--watch --json after a change", (found["changed"], found["status"], "time" in found), (
        ["public.orders: sound -> NOT SOUND"], 1, True))
    process.send_signal(signal.SIGINT)
    tally.check("the end of --watch --json", process.wait(60), 1)
    process.communicate()
    started.psql("shop", "CREATE PUBLICATION nowhere FOR TABLE orders WHERE (region IS NULL)")
    tally.check("--watch --nagios", judge("--watch", "1", "--nagios", *started.words("shop")).splitlines()[0], (
        "PGSHARD UNKNOWN - --nagios cannot be combined with --watch"))


def watching(started: Server, *words: str) -> "subprocess.Popen[str]":
    """Starts judge --watch."""
    return subprocess.Popen(
        [str(it) for it in (TOOLS / "judge", *started.words("shop"), "--seconds", "300", *words)],
        stdout=subprocess.PIPE, encoding="utf-8", env=environment() | {"PGSHARD": PGSHARD}, start_new_session=True)


def change_of(process: "subprocess.Popen[str]", said: str) -> str:
    """Returns the next lines that judge prints, without times, as many as are expected. Lines for a locked table are
    left out."""
    found = timeless(lines_of(process, said.count("\n")))
    if LOCKED.startswith(found):
        found += timeless(lines_of(process, LOCKED.count("\n") - found.count("\n")))
    return said if found == LOCKED else found


def timeless(lines: str) -> str:
    """Returns lines without times."""
    return re.sub(r"(?m)^\d{4}-\d\d-\d\dT\d\d:\d\d:\d\dZ", "TIME", lines)


def lines_of(process: "subprocess.Popen[str]", count: int) -> str:
    """Returns the next lines that judge prints."""
    assert process.stdout is not None
    return "".join(process.stdout.readline() for _ in range(count))
