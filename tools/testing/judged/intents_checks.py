"""Tests judge with a file of intentions, as shown in docs/JUDGING.md."""

import pathlib
import tempfile

from programs import TOOLS, judge
from server import Server
from tally import Tally

DATABASE = "intents"
SETUP = """
    CREATE TABLE settings (name text PRIMARY KEY, value text);
    CREATE TABLE drafts (id integer PRIMARY KEY, region integer NOT NULL);
    CREATE TABLE events (id bigint NOT NULL, region integer NOT NULL);
    CREATE TABLE orders (id integer PRIMARY KEY);
    CREATE TABLE scratch (id integer PRIMARY KEY);
    ALTER TABLE drafts REPLICA IDENTITY FULL;
    CREATE PUBLICATION europe FOR TABLE settings, drafts WHERE (region < 100);
    CREATE PUBLICATION asia FOR TABLE settings, drafts WHERE (region BETWEEN 100 AND 199);
    CREATE PUBLICATION europe_events FOR TABLE events WHERE (region < 100) WITH (publish = 'insert');
    CREATE PUBLICATION asia_events FOR TABLE events WHERE (region >= 100) WITH (publish = 'insert');
    CREATE PUBLICATION europe_orders FOR TABLE orders WHERE (id < 100) WITH (publish = 'insert, update, delete');
    CREATE PUBLICATION asia_orders FOR TABLE orders WHERE (id >= 100), scratch WHERE (id > 0)
        WITH (publish = 'insert, update, delete');
"""
REFUSED = """
    CREATE TABLE notes (id integer PRIMARY KEY, region integer NOT NULL);
    CREATE TABLE orders (id integer PRIMARY KEY);
    CREATE PUBLICATION a FOR TABLE orders WHERE (id < 100) WITH (publish = 'insert, update, delete');
    CREATE PUBLICATION b FOR TABLE orders WHERE (id >= 100) WITH (publish = 'insert, update, delete');
    CREATE PUBLICATION c FOR TABLE notes WHERE (region < 100);
    CREATE PUBLICATION d FOR TABLE notes WHERE (region >= 100);
"""
MENDS = """
    ALTER TABLE public.notes REPLICA IDENTITY FULL;
    ALTER PUBLICATION a SET (publish = 'insert, update, delete, truncate');
    ALTER PUBLICATION b SET (publish = 'insert, update, delete, truncate');
"""
INTENT = """\
copied = ["settings"]
partial = ["drafts"]
append-only = ["events"]
skip = ["scratch"]

[omitted]
orders = ["truncate"]

[subscribers]
london = ["europe", "europe_events", "europe_orders"]
tokyo = ["asia", "asia_events", "asia_orders"]
"""
SAYS = """\
public.drafts: sound (published in part, as partial in pgshard.toml says)
public.events: sound (update and delete and truncate left out, as append-only in pgshard.toml says)
public.orders: sound (truncate left out, as omitted in pgshard.toml says)
public.settings: sound (copied to all subscribers, as copied in pgshard.toml says)
public.scratch: not judged, as skip in pgshard.toml says
the subscribers are those of pgshard.toml
tables: 4 judged, 4 sound
"""
SUBSCRIBERS = INTENT[INTENT.index("[subscribers]"):]
OTHERWISE = """\
public.drafts: NOT SOUND: the row (0, 200) goes to no subscriber
    region = 200, no filter names another column
    but partial = ["public.drafts"] in pgshard.toml would allow it
    region >= 200 -> nobody, as (0, 200)
public.events: REFUSED: each row passes the filters of one subscriber, but publications europe_events and asia_events do \
not publish update, delete and truncate; ALTER PUBLICATION .. SET (publish = 'insert, update, delete, truncate'), with \
ALTER TABLE public.events REPLICA IDENTITY FULL, mends that; if rows are only ever inserted, \
append-only = ["public.events"] in a file of --intent allows it
public.orders: REFUSED: each row passes the filters of one subscriber, but publications europe_orders and asia_orders do \
not publish truncate; ALTER PUBLICATION .. SET (publish = 'insert, update, delete, truncate') mends that; \
if that is on purpose, omitted."public.orders" = ["truncate"] in a file of --intent allows it
public.scratch: NOT SOUND: the row (0) goes to no subscriber
    id = 0
    but partial = ["public.scratch"] in pgshard.toml would allow it
    REFUSED, too: publication asia_orders does not publish truncate
    id < 1 -> nobody, as (0)
public.settings: NOT SOUND: the row ('', NULL) goes to london and tokyo
    no filter names a column
    but copied = ["public.settings"] in pgshard.toml would allow it
    all rows -> london and tokyo, as ('', NULL)
the subscribers are those of pgshard.toml
tables: 5 judged, 0 sound
"""


def check_intents(tally: Tally, server: Server) -> None:
    """Tests what is intended, what would allow what is refused, and files that are refused."""
    server.create(DATABASE, SETUP)
    document = (TOOLS.parent / "docs" / "JUDGING.md").read_text()
    tally.check("the file of intentions in docs/JUDGING.md", INTENT in document, True)
    tally.check("what judge says by it in docs/JUDGING.md", SAYS in document, True)
    tally.check("a file of intentions", said(server, INTENT), f"{SAYS}status 0\n")
    tally.check("which intentions would allow it", said(server, SUBSCRIBERS), f"{OTHERWISE}status 1\n")
    tally.check("--copied beside a file", said(server, SUBSCRIBERS, "--copied", "settings").splitlines()[-5:-3], [
        "    id < 1 -> nobody, as (0)", "public.settings: sound (copied to all subscribers)"])
    tally.check("-v beside a file", said(server, INTENT, "-v", "subscriptions=one=europe two=asia").splitlines()[-3], (
        "the subscribers are those of -v subscriptions"))
    check_refused(tally, server, document)
    for text, words in {
            'copied = ["gone"]': "copied: public.gone: no such table is published",
            "[omitted]\ngone = ['update']": "omitted: public.gone: no such table is published",
            "skipped = []": "skipped: an intention is one of copied, partial, append-only, skip, omitted, subscribers",
            "[omitted]\norders = ['insert']": "omitted.orders: insert is not one of update, delete, truncate"}.items():
        tally.check(f"a file with {text}", said(server, text), f"judge: pgshard.toml: {words}\nstatus 2\n")


def check_refused(tally: Tally, server: Server, document: str) -> None:
    """Tests the lines of refused tables, as shown in docs/JUDGING.md, and that what mends them does."""
    server.create("mended", REFUSED)
    lines = judge(*server.words("mended")).splitlines()[:2]
    tally.check("what judge says of refused tables in docs/JUDGING.md", "\n".join(lines) in document, True)
    server.psql("mended", MENDS)
    tally.check("what mends them", judge(*server.words("mended")).splitlines()[:2], [
        "public.notes: sound", "public.orders: sound"])


def said(server: Server, intent: str, *words: str) -> str:
    """Returns what judge says with an intent file, whose folder is removed from the text."""
    with tempfile.TemporaryDirectory() as folder:
        path = pathlib.Path(folder) / "pgshard.toml"
        path.write_text(intent)
        answer: str = judge(*server.words(DATABASE), "--intent", path, *words)
        return answer.replace(f"{folder}/", "")
