"""Tests judge's row counts against numbers worked out by hand."""

import json
import subprocess
from typing import Any

from examples_checks import is_shown
from programs import judge
from server import Server, environment
from tally import Tally

SETUP = """
    CREATE TABLE orders (id integer, region integer, PRIMARY KEY (id));
    ALTER TABLE orders REPLICA IDENTITY FULL;
    INSERT INTO orders SELECT n, nullif(n % 10, 3) FROM generate_series(1, 1000) AS n;
    CREATE TABLE rates (id integer PRIMARY KEY);
    INSERT INTO rates SELECT generate_series(1, 20);
    CREATE TABLE notes (note text);
    ALTER TABLE notes REPLICA IDENTITY FULL;
    INSERT INTO notes VALUES ('a'), ('a'), (NULL);
    CREATE TABLE parents (id integer PRIMARY KEY);
    CREATE TABLE children () INHERITS (parents);
    INSERT INTO parents SELECT generate_series(1, 5);
    INSERT INTO children SELECT generate_series(6, 9);
    CREATE TABLE events (id integer, day integer, PRIMARY KEY (id, day)) PARTITION BY RANGE (day);
    CREATE TABLE first PARTITION OF events FOR VALUES FROM (0) TO (100);
    CREATE UNLOGGED TABLE second PARTITION OF events FOR VALUES FROM (100) TO (200);
    INSERT INTO events SELECT n, n FROM generate_series(0, 149) AS n;
    CREATE TABLE failing (id integer PRIMARY KEY);
    INSERT INTO failing SELECT generate_series(0, 3);
    CREATE TABLE hidden (id integer PRIMARY KEY);
    INSERT INTO hidden SELECT generate_series(1, 7);
    ALTER TABLE hidden ENABLE ROW LEVEL SECURITY;
    CREATE POLICY low ON hidden USING (id < 3);
    CREATE PUBLICATION p FOR TABLE orders WHERE (id <= 600 AND region IS NOT NULL), rates WHERE (id < 9),
        notes WHERE (note = 'a'), failing WHERE (12 / id < 5), hidden, ONLY parents WHERE (id < 4);
    CREATE PUBLICATION q FOR TABLE orders WHERE (id > 500 AND region IS NOT NULL), rates WHERE (id > 0);
    CREATE PUBLICATION r FOR TABLE events WHERE (day < 90) WITH (publish_via_partition_root = true);
    CREATE ROLE counter LOGIN;
    GRANT SELECT ON hidden TO counter;
"""
WORDS = ["-v", "subscriptions=p=p,r q=q", "--copied", "rates", "--rows", "2"]
# The counts of each table: all rows, those for nobody, those for several subscribers, and those for each subscriber.
COUNTS = {
    # Of 1,000 rows, 100 have a NULL, and of rows 501 to 600, 90 have none.
    "public.orders": (1000, 100, 90, {"p": 540, "q": 450}),
    "public.rates": (20, 0, 8, {"p": 8, "q": 20}),
    "public.notes": (3, 1, 0, {"p": 2, "q": 0}),
    "public.parents": (5, 2, 0, {"p": 3, "q": 0}),
    # The server sends nothing of the unlogged partition.
    "public.events": (150, 60, 0, {"p": 90, "q": 0}),
    "public.hidden": (7, 0, 0, {"p": 7, "q": 0}),
}
REGIONS = {"region IS NULL": 100, "id BETWEEN 501 AND 600 AND region IS NOT NULL": 90}
TOLD = [
    "    region IS NULL -> nobody, as (0, NULL): 100 rows\n",
    "    of 1,000 rows 100 go to nobody, 90 to several\n",
    "    of 20 rows 12 do not go to each subscriber\n    the row with id = 9 -> q\n    the row with id = 10 -> q\n",
    "    of 3 rows 1 goes to nobody, 0 to several\n"
    "    the row with tableoid = 'public.notes', ctid = '(0,3)' -> nobody\n",
    "    its rows are not counted: division by zero; a filter that fails at a row stops the replication there\n"]
DENIED = "; try it as a role that may read all rows of the table\n"


def check_counts(tally: Tally, server: Server) -> None:
    """Tests all counts."""
    server.create("counted", SETUP)
    words = server.words("counted")
    found, status = judge(*words, *WORDS, "--json").rsplit("status ", 1)
    tally.check("the status with --count", status, "1\n")
    check_tables(tally, {it["table"]: it for it in json.loads(found)["tables"]})
    lines = judge(*words, *WORDS)
    for part in TOLD:
        tally.check("what is told of counts", part if part in lines else lines, part)
    shown = "public.orders" + lines.partition("public.orders")[2].partition("public.")[0]
    tally.check("what docs/JUDGING.md shows of counts", shown if not is_shown("docs/JUDGING.md", shown) else "", "")
    lines = judge(*words, "-U", "counter", "--count")
    for part in (f"not counted: permission denied for table orders{DENIED}",
                 f'not counted: query would be affected by row-level security policy for table "hidden"{DENIED}'):
        tally.check("what a role may not count", part if part in lines else lines, part)
    for given in "0", "-1", "x":
        tally.check(f"--rows {given}", judge(*words, "--rows", given), (
            f"judge: argument --rows: it takes 1 to 10,000, not {given}; --help lists the options\nstatus 2\n"))
    check_lock(tally, server)


def check_tables(tally: Tally, tables: dict[str, dict[str, Any]]) -> None:
    """Checks the numbers in JSON."""
    for name, (rows, nobody, several, each) in COUNTS.items():
        counts = tables[name].get("counts", {})
        tally.check(f"the counts of {name}", [counts.get(it) for it in ("rows", "nobody", "several", "each")],
                    [rows, nobody, several, each])
    orders = tables["public.orders"]
    tally.check("the counts of regions", {it["rows"]: it["count"] for it in orders["faults"]}, REGIONS)
    tally.check("keys", orders["keys"], [
        {"key": {"id": "3"}, "goes_to": []}, {"key": {"id": "13"}, "goes_to": []}])
    tally.check("rows of a table that is to be copied", tables["public.rates"]["counts"]["lacking"], 12)


def check_lock(tally: Tally, server: Server) -> None:
    """Tests a table that another session has locked."""
    words = ["psql", "-X", "-q", "-A", "-t", *server.words("counted")]
    holder = subprocess.Popen(
        words, stdin=subprocess.PIPE, stdout=subprocess.PIPE, encoding="utf-8", env=environment())
    assert holder.stdin is not None and holder.stdout is not None
    holder.stdin.write("BEGIN; LOCK TABLE rates IN ACCESS EXCLUSIVE MODE; SELECT 'locked';\n")
    holder.stdin.flush()
    tally.check("the lock", holder.stdout.readline(), "locked\n")
    lines = judge(*server.words("counted"), "--count")
    part = "its rows are not counted: canceling statement due to lock timeout; try it again\n"
    tally.check("what is not counted", part if part in lines else lines, part)
    holder.communicate("ROLLBACK;\n")
