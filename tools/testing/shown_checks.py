"""Tests that a server takes what `show` prints, and creates the same objects from it as from the original text."""

import random
import re
from collections.abc import Iterator
from dataclasses import dataclass

from programs import pgshard
from random_cases.catalog_texts import CatalogText
from random_cases.comparison import seed
from random_cases.shows import ShownCase, case
from runs.catalogs import BASE, INDEXED, REGIONS
from runs.shows import CATALOG, FILTERS, T
from server import Server
from tally import Tally

# The number of random catalogs.
CATALOGS = 40

# The beginning of a state that is a refusal.
REFUSED = "refused: "

# Matches a statement. A doubled quote is read as the end of one text and the beginning of the next.
STATEMENT = re.compile(r"""(?:"[^"]*"|'[^']*'|[^;"'])*;""")

# The end of a statement that creates a subscription which does not connect.
UNCONNECTED = "WITH (connect = false, slot_name = NONE)"

# Lists the objects of a database: tables with their columns, indexes, identities, publications with what they carry,
# and subscriptions. Names of key indexes are chosen by the server, and conditions may be printed differently, so these
# are left out.
HAS = r"""
SELECT 'column', c.oid::regclass, a.attname, format_type(a.atttypid, a.atttypmod), a.attnotnull
FROM pg_class c JOIN pg_attribute a ON a.attrelid = c.oid WHERE c.relkind = 'r' AND c.oid >= 16384 AND a.attnum > 0
ORDER BY c.oid::regclass::text COLLATE "C", a.attnum;
SELECT indrelid::regclass, indisprimary, CASE WHEN NOT indisprimary THEN indexrelid::regclass::text END, indisunique,
    indisreplident, indkey
FROM pg_index JOIN pg_class ON pg_class.oid = indrelid WHERE relkind = 'r' AND indrelid >= 16384
ORDER BY indrelid::regclass::text COLLATE "C", indisprimary, indexrelid::regclass::text COLLATE "C";
SELECT oid::regclass, relreplident FROM pg_class WHERE relkind = 'r' AND oid >= 16384
ORDER BY oid::regclass::text COLLATE "C";
SELECT pubname, pubinsert, pubupdate, pubdelete, pubtruncate FROM pg_publication ORDER BY pubname COLLATE "C";
SELECT pubname, schemaname, tablename, rowfilter IS NULL FROM pg_publication_tables
ORDER BY pubname COLLATE "C", schemaname COLLATE "C", tablename COLLATE "C";
SELECT subname, subpublications FROM pg_subscription
WHERE subdbid = (SELECT oid FROM pg_database WHERE datname = current_database()) ORDER BY subname COLLATE "C";
"""

DROP = r"""
SELECT format('DROP SUBSCRIPTION %I', subname) FROM pg_subscription
WHERE subdbid = (SELECT oid FROM pg_database WHERE datname = current_database()) \gexec
"""


@dataclass(frozen=True)
class Text:
    """A catalog's text, and the same text for a server, in which no subscription connects."""

    text: str
    for_server: str


def check_shown(tally: Tally, server: Server) -> None:
    """Creates two databases from each catalog if the server takes its text, and otherwise one."""
    count, compared = 0, 0
    for count, text in enumerate(texts(), 1):
        compared += is_compared(tally, server, count, text)
    print(f"shown catalogs that a server took: {count}, of which {compared} are compared with the text that was shown")
    tally.check("whether most of them are compared", compared > count // 2, True)


def texts() -> Iterator[Text]:
    """Yields fixed catalogs, and random ones of the day's seed."""
    filters = "".join(
        f"CREATE PUBLICATION p{number} FOR TABLE t WHERE ({condition});\n" for number, (condition, _) in enumerate(FILTERS))
    for text in (BASE, REGIONS, INDEXED, CATALOG, T + filters):
        yield Text(text, unconnected(text))
    for number in range(CATALOGS):
        yield of_case(case(random.Random(f"shown {seed()} {number}")), random.Random(number))


def of_case(made: ShownCase, chance: random.Random) -> Text:
    """Returns the text of a random catalog."""
    statements = CatalogText(made.catalog, chance, False).statements()
    ended = [[*it[:-1], UNCONNECTED, ";"] if it[:2] == ["CREATE", "SUBSCRIPTION"] else it for it in statements]
    return Text(made.catalog_text, "\n".join(" ".join(it) for it in ended))


def unconnected(text: str) -> str:
    """Returns a text whose subscriptions do not connect."""
    found = [it[0].strip() for it in STATEMENT.finditer(text)]
    return "\n".join(
        it.removesuffix(";") + f" {UNCONNECTED};" if it.startswith("CREATE SUBSCRIPTION ") else it for it in found)


def is_compared(tally: Tally, server: Server, number: int, text: Text) -> bool:
    """Returns whether the server takes both texts of a catalog; it must then have the same objects from both. It may
    refuse what is shown only if it refuses the original text for the same reason, such as a key of over 32 columns."""
    status, shown = pgshard("show", text=text.text)
    tally.check(f"show of catalog {number}", status, 0)
    found = state(server, "shown", unconnected(shown))
    before = state(server, "before", text.for_server)
    if before.startswith(REFUSED) and not found.startswith(REFUSED):
        return False
    tally.check(f"what the server has of what is shown of catalog {number}", found, before)
    return not found.startswith(REFUSED)


def state(server: Server, database: str, text: str) -> str:
    """Returns the objects of a database that is created from a text, or the server's refusal. The database is dropped
    again."""
    server.psql("postgres", f"CREATE DATABASE {database}")
    try:
        said = server.refusal(database, f"SET client_min_messages = error;\n{text}")
        return f"{REFUSED}{said}" if said else server.psql(database, HAS)
    finally:
        server.psql(database, DROP)
        server.psql("postgres", f"DROP DATABASE {database}")
