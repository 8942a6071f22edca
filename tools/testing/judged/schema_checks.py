"""Tests what judge says of a schema file, and that nothing remains of the server that loads it."""

import os
import pathlib
import signal
import subprocess
import tempfile
import time

from programs import TOOLS, judge
from server import PROGRAMS, Server, environment
from tally import Tally

SCHEMA = """
    CREATE ROLE "Alice B"; CREATE ROLE bob; CREATE ROLE carol;
    CREATE TYPE mood AS ENUM ('low', 'high');
    CREATE DOMAIN code AS varchar(10) CHECK (VALUE <> '');
    CREATE FUNCTION touch() RETURNS trigger LANGUAGE plpgsql AS $$ BEGIN -- it's new
        RETURN NEW; END $$;
    CREATE TABLE orders (
        id bigserial PRIMARY KEY, number integer GENERATED ALWAYS AS IDENTITY, mood mood, code code,
        price numeric(10, 2) CHECK (price > 0), made timestamptz DEFAULT now(), about jsonb, marks text[],
        twice numeric GENERATED ALWAYS AS (price * 2) STORED);
    ALTER TABLE orders OWNER TO "Alice B";
    GRANT SELECT ON orders TO bob;
    CREATE POLICY seen ON orders TO carol USING (true);
    COMMENT ON TABLE orders IS 'of customers; \\restrict';
    CREATE TRIGGER touched AFTER UPDATE ON orders FOR EACH ROW EXECUTE FUNCTION touch();
    ALTER TABLE orders REPLICA IDENTITY FULL;
    CREATE TABLE visits (id integer, day date NOT NULL, PRIMARY KEY (id, day)) PARTITION BY RANGE (day);
    CREATE TABLE visits_1 PARTITION OF visits FOR VALUES FROM ('2025-01-01') TO ('2026-01-01');
    CREATE TABLE visits_2 PARTITION OF visits FOR VALUES FROM ('2026-01-01') TO ('2027-01-01');
    CREATE TABLE notes (id integer);
    CREATE PUBLICATION low FOR TABLE orders WHERE (number < 100), visits WHERE (day < '2026-01-01')
        WITH (publish_via_partition_root = true);
    CREATE PUBLICATION high FOR TABLE orders WHERE (number >= 100), visits WHERE (day > '2026-01-01')
        WITH (publish_via_partition_root = true);
    CREATE SUBSCRIPTION other CONNECTION 'host=nowhere' PUBLICATION there WITH (connect = false, slot_name = 'other');
"""
CONNECTS = (
    "the subscription would connect to its publisher; judge reads CREATE SUBSCRIPTION .. WITH (connect = false), as "
    "pg_dump writes it")

# Files that are refused, each with the message after the file's name.
REFUSED = {
    "CREATE TABLE t (id integer PRIMARY KEY);\nCREATE TABLE u (id money PRIMARY KEY, b gone);":
        '2: type "gone" does not exist\n    LINE 1: CREATE TABLE u (id money PRIMARY KEY, b gone);\n'
        "                                                    ^",
    "CREATE TABLE t (id money PRIMARY KEY);\nCREATE PUBLICATION p FOR TABLE u;": '2: relation "u" does not exist',
    "CREATE TABLE t (id money);\n\\connect shop": "2: judge reads one database; dump it with pg_dump, without -C",
    "CREATE TABLE t (id money);\n\nALTER SUBSCRIPTION s REFRESH PUBLICATION;": f"3: {CONNECTS}",
}

# A program that refuses the file, so that judge takes it for a schema, and that then reports its start and never ends.
ENDLESS = """\
#!/bin/sh
if [ -e {begun}.once ]; then : > {begun}; exec sleep 600; fi
: > {begun}.once
echo 'catalog 0 Expected'
exit 3
"""


def check_schemas(tally: Tally, server: Server) -> None:
    """Tests all of these."""
    server.create("schema_file", SCHEMA)
    with tempfile.TemporaryDirectory() as name:
        folder = pathlib.Path(name)
        folders = left()
        check_dump(tally, server, folder / "the shop's.sql")
        check_text(tally, folder / "shop.sql")
        check_refusals(tally, folder / "refused.sql")
        check_ending(tally, folder)
        tally.check("folders that are left", left() - folders, set())


def left() -> set[pathlib.Path]:
    """Returns the folders of servers."""
    return {it for parent in (pathlib.Path("/tmp"), pathlib.Path(tempfile.gettempdir()))
            for it in parent.glob("pgshard_judge_*")}


def check_dump(tally: Tally, server: Server, file: pathlib.Path) -> None:
    """Checks that the output of pg_dump -s has the same answers as the database."""
    dump = subprocess.run(
        [PROGRAMS / "pg_dump", "-s", *server.words("schema_file")], stdout=subprocess.PIPE, encoding="utf-8",
        check=True, env=environment())
    # The form that pg_dump has in version 17 and in later releases of 15.
    file.write_text(f"\\restrict abc\n\nSET transaction_timeout = 0;\n{dump.stdout}\n\\unrestrict abc\n")
    words = ["-v", "subscriptions=a=low b=high", "--copied", "orders", "--all"]
    tally.check("what judge says of pg_dump's file", judge(str(file), *words), judge(
        *server.words("schema_file"), *words))
    found = judge(str(file))
    for part in "public.orders: sound", "public.visits: NOT SOUND", "goes to no subscriber", "status 1":
        tally.check(f"pg_dump's file: {part}", part if part in found else found, part)


def check_text(tally: Tally, file: pathlib.Path) -> None:
    """Checks that each publication counts as a subscriber if there are no subscriptions, also if pgshard reads the text
    itself."""
    file.write_text("""
        CREATE TABLE orders (id integer PRIMARY KEY, region integer NOT NULL);
        ALTER TABLE orders REPLICA IDENTITY FULL;
        CREATE PUBLICATION europe FOR TABLE orders WHERE (region < 100);
        CREATE PUBLICATION elsewhere FOR TABLE orders WHERE (region >= 100);
    """)
    tally.check("a file of an operator", judge(str(file)), "\n".join([
        "public.orders: sound",
        "each publication counts as a subscriber of its own; -v subscriptions='..' names others",
        "tables: 1 judged, 1 sound", "status 0", ""]))


def check_refusals(tally: Tally, file: pathlib.Path) -> None:
    """Checks that each refusal has its line and status 3."""
    for text, words in REFUSED.items():
        file.write_text(text)
        tally.check(f"a schema with {text!r}", judge(str(file)), f"refused: {file}:{words}\nstatus 3\n")
    file.write_text("CREATE TABLE t (id money);\nCREATE SUBSCRIPTION s CONNECTION 'host=127.0.0.1' PUBLICATION p;")
    found = judge(str(file)).split("\n")
    tally.check("a text with a subscription that connects", (found[0].split(",")[0], found[-2]), (
        "refused: line 1 of the catalog", "status 3"))


def check_ending(tally: Tally, folder: pathlib.Path) -> None:
    """Checks that a signal ends judge, its server and its folder."""
    program, begun, file = folder / "program", folder / "begun", folder / "ended.sql"
    program.write_text(ENDLESS.format(begun=begun))
    program.chmod(0o700)
    file.write_text("CREATE TABLE t (id integer PRIMARY KEY); CREATE PUBLICATION p FOR TABLE t;")
    before = left()
    process = subprocess.Popen(
        [TOOLS / "judge", "--seconds", "300", file], stdout=subprocess.DEVNULL,
        env=environment() | {"PGSHARD": str(program)})
    for _ in range(1200):
        if begun.exists() or process.poll() is not None:
            break
        time.sleep(0.1)
    made = left() - before
    tally.check("the folder of a server", len(made), 1)
    os.kill(process.pid, signal.SIGTERM)
    tally.check("how judge ends", process.wait(), -signal.SIGTERM)
    tally.check("the folder afterwards", left() & made, set())
    for it in made:
        running = subprocess.run(["pgrep", "-f", str(it)], stdout=subprocess.PIPE, encoding="utf-8").stdout
        tally.check("processes afterwards", running, "")
