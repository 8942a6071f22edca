"""Tests what judge says of a migration that it runs and rolls back, and that nothing of it remains."""

import json
import pathlib
import subprocess
import tempfile

import server as servers
from programs import judge
from server import Server, environment
from tally import Tally

SHOP = """
    CREATE TABLE orders (id integer PRIMARY KEY, region integer NOT NULL);
    ALTER TABLE orders REPLICA IDENTITY FULL;
    CREATE TABLE notes (id integer PRIMARY KEY);
    CREATE TABLE spare (id integer PRIMARY KEY);
    CREATE TABLE pairs (id integer PRIMARY KEY, orders integer REFERENCES notes DEFERRABLE INITIALLY DEFERRED);
    CREATE PUBLICATION europe FOR TABLE orders WHERE (region < 100);
    CREATE PUBLICATION elsewhere FOR TABLE orders WHERE (region >= 100);
    CREATE PUBLICATION spares FOR TABLE spare;
    INSERT INTO orders VALUES (1, 10);
"""
MIGRATION = """\
-- The name of a column is in the text as psql's variables and commands are: :USER, \\q
ALTER TABLE orders ALTER region DROP NOT NULL;
CREATE TABLE items (id integer PRIMARY KEY, name varchar(20) DEFAULT 'a\\b''c :USER');
CREATE PUBLICATION items FOR TABLE items;
ALTER PUBLICATION europe ADD TABLE notes;
DROP PUBLICATION spares;
INSERT INTO orders VALUES (2, NULL);
SELECT * FROM orders;
"""
CHANGES = [
    ("public.items", "not there", "sound"), ("public.notes", "not published", "sound"),
    ("public.orders", "sound", "NOT SOUND"), ("public.spare", "sound", "not published")]
NOT_SOUND = [
    "public.orders: NOT SOUND: the row (0, NULL) goes to no subscriber",
    "    region = NULL, no filter names another column", "    region IS NULL -> nobody, as (0, NULL)"]
EACH = "each publication counts as a subscriber of its own; -v subscriptions='..' names others"

# Migrations that are refused, each with the message after the file's name.
REFUSED = {
    "BEGIN;\nSELECT 1;\nCOMMIT;":
        "1: --with runs the file in one transaction, which is rolled back, so the file cannot begin or end one; try "
        "it without BEGIN, COMMIT, ROLLBACK and SAVEPOINT",
    "SELECT 1;\n\n/* all at once */ PREPARE TRANSACTION 'x';":
        "3: --with runs the file in one transaction, which is rolled back, so the file cannot begin or end one; try "
        "it without BEGIN, COMMIT, ROLLBACK and SAVEPOINT",
    "SELECT 1;\nCREATE INDEX CONCURRENTLY ON orders (region);":
        "2: CREATE INDEX CONCURRENTLY cannot run inside a transaction block; --with runs the file in one, which is "
        "rolled back, so try it without this statement",
    "VACUUM orders;":
        "1: VACUUM cannot run inside a transaction block; --with runs the file in one, which is rolled back, so try it "
        "without this statement",
    "SELECT pg_create_logical_replication_slot('left', 'pgoutput');":
        "1: a rollback does not undo what pg_create_logical_replication_slot() does; try the file without it",
    "COPY orders FROM '/tmp/orders';":
        "1: COPY has data or files outside of the database, which --with leaves alone; try the file without it",
    "SELECT 1;\n\\connect postgres\nDROP TABLE orders;":
        '2: syntax error at or near "\\"; --with reads statements of SQL, without commands of psql',
    "SELECT 1;\nSELECT 'x'\n  || 1/0;": "2: division by zero",
    "DO $$ BEGIN COMMIT; END $$;": "1: invalid transaction termination",
    "INSERT INTO pairs VALUES (1, 1);":
        '1: insert or update on table "pairs" violates foreign key constraint "pairs_orders_fkey"',
}


def check_what_if(tally: Tally) -> None:
    """Tests all of these, with a server whose catalogs nothing else changes."""
    settings = "-c autovacuum=off -c max_prepared_transactions=2"
    with tempfile.TemporaryDirectory() as name, servers.server(settings) as server:
        file = pathlib.Path(name) / "it's a migration.sql"
        server.create("what_if", SHOP)
        before = contents(server)
        check_changes(tally, server, file)
        check_subscribers(tally, server, file)
        check_refusals(tally, server, file)
        check_lock(tally, server, file)
        tally.check("what migrations leave in the catalogs and tables", differences(before, contents(server)), {})
        check_standby(tally, server, file)


def contents(server: Server) -> dict[str, str]:
    """Returns a checksum of the rows of each table of the catalogs and the database, and the state in memory."""
    names = server.psql("what_if", """
        SELECT c.oid::regclass::text FROM pg_class c WHERE relkind = 'r' AND relpersistence = 'p'
            AND (relnamespace = 'pg_catalog'::regnamespace OR c.oid >= 16384)
        UNION ALL SELECT unnest('{pg_replication_slots,pg_prepared_xacts}'::text[]) ORDER BY 1;
    """).split("\n")
    sums = " UNION ALL ".join(
        f"SELECT '{it}', md5(coalesce(string_agg(t::text, '|' ORDER BY t::text), '')) FROM {it} t" for it in names)
    return dict(line.split("|") for line in server.psql("what_if", f"{sums};").split("\n"))


def differences(before: dict[str, str], after: dict[str, str]) -> dict[str, tuple[str | None, str | None]]:
    """Returns the tables whose rows differ."""
    return {it: (before.get(it), after.get(it)) for it in {*before, *after} if before.get(it) != after.get(it)}


def check_changes(tally: Tally, server: Server, file: pathlib.Path) -> None:
    """Checks what would be published, and which answers change, as lines and as JSON."""
    words = [*server.words("what_if"), "--with", str(file)]
    file.write_text(MIGRATION)
    tally.check("a migration", judge(*words), "\n".join([
        "public.items: sound", "public.notes: sound", *NOT_SOUND, EACH,
        "tables: 3 judged, 2 sound; 2 not published, which --all names",
        f"with {file} these answers change:", *(f"    {name}: {one} -> {other}" for name, one, other in CHANGES),
        "status 1", ""]))
    found, _, status = judge(*words, "--json").rpartition("status ")
    answer = json.loads(found)
    tally.check("a migration as JSON", (answer["with"], answer["changes"], answer["status"], status), (
        str(file), [{"table": name, "before": one, "after": other} for name, one, other in CHANGES], 1, "1\n"))
    file.write_text("COMMENT ON TABLE orders IS 'of customers';")
    tally.check("a migration that changes nothing", judge(*words), "\n".join([
        "public.orders: sound", "public.spare: sound", EACH,
        "tables: 2 judged, 2 sound; 2 not published, which --all names", f"with {file} no answer changes",
        "status 0", ""]))


def check_subscribers(tally: Tally, server: Server, file: pathlib.Path) -> None:
    """Tests subscribers to a publication that the migration creates, and a table of it that is copied."""
    file.write_text(
        "CREATE TABLE items (id integer PRIMARY KEY); CREATE PUBLICATION items FOR TABLE items; "
        "SET lock_timeout = '10min'; SET ROLE pg_read_all_stats;")
    given = ["-v", "subscriptions=a=europe,items b=elsewhere,items c=spares", "--copied", "items"]
    found = judge(*server.words("what_if"), "--with", str(file), *given)
    tally.check("subscribers of what is not there yet", found, "\n".join([
        "public.items: NOT SOUND: the row (0) goes to a and b", "    no filter names a column",
        "    but it is to be copied to all subscribers, and c does not get this row",
        "    all rows -> a and b, not c, as (0)",
        "public.orders: sound", "public.spare: sound", "the subscribers are those of -v subscriptions",
        "tables: 3 judged, 2 sound; 2 not published, which --all names", f"with {file} these answers change:",
        "    public.items: not there -> NOT SOUND", "status 1", ""]))


def check_refusals(tally: Tally, server: Server, file: pathlib.Path) -> None:
    """Checks that each refusal has its line and status 3."""
    for text, words in REFUSED.items():
        file.write_text(text)
        found = judge(*server.words("what_if"), "--with", str(file))
        tally.check(f"a migration with {text!r}", found, f"refused: {file}:{words}\nstatus 3\n")
    found = judge(*server.words("what_if"), "--with", f"{file}.none").split("\n")
    tally.check("a migration that is not there", (found[0][:18], found[-2]), ("judge: cannot read", "status 2"))


def check_lock(tally: Tally, server: Server, file: pathlib.Path) -> None:
    """Tests a migration that would have to wait for another session, and one with a lock timeout of its own."""
    words = ["psql", "-X", "-q", "-A", "-t", *server.words("what_if")]
    holder = subprocess.Popen(
        words, stdin=subprocess.PIPE, stdout=subprocess.PIPE, encoding="utf-8", env=environment())
    assert holder.stdin is not None and holder.stdout is not None
    holder.stdin.write("BEGIN; LOCK TABLE orders IN ACCESS SHARE MODE; SELECT 'locked';\n")
    holder.stdin.flush()
    tally.check("the lock", holder.stdout.readline(), "locked\n")
    file.write_text("SET lock_timeout = 0;\nALTER TABLE orders ADD note text;")
    tally.check("a migration that waits for a lock", judge(*server.words("what_if"), "--with", str(file)), (
        f"refused: {file}:2: canceling statement due to lock timeout: another session holds a lock on what it changes; "
        "try again\nstatus 3\n"))
    holder.communicate("ROLLBACK;\n")


def check_standby(tally: Tally, server: Server, file: pathlib.Path) -> None:
    """Tests the same server as a hot standby."""
    data = server.folder / "data"
    servers.stop(data)
    (data / "standby.signal").write_text("")
    options = f"-k {server.folder} -c listen_addresses='' -c max_prepared_transactions=2"
    servers.run_as_user(
        servers.PROGRAMS / "pg_ctl", "-D", data, "-o", options, "-l", server.folder / "log", "-w", "start")
    file.write_text("SELECT 1;")
    tally.check("a hot standby", judge(*server.words("what_if"), "--with", str(file)), (
        "judge: --with: the server is a hot standby, where no statement of a migration can run; use its primary\n"
        "status 2\n"))
