"""A script for `simulate` with steps of every kind, as data, over three tables of two subscribers."""

import random

from model.catalogs import DEFAULT, Catalog, Column, Index, Publication, Subscription, Table
from model.worlds import ALL, Step
from programs import pgshard
from random_cases.case import parts
from random_cases.catalog_texts import CatalogText
from random_cases.scripts import ScriptText

from .running import SECONDS

ORDERS, STOCK, ACCOUNTS = 0, 1, 2

TABLES = (
    Table("public", "orders", (
        Column("id", "bigint", False), Column("region", "integer", False), Column("note", "text", False),
        Column("paid", "boolean", False)), (0,)),
    Table("public", "stock", (
        Column("place", "smallint", False), Column("article", "text", False), Column("amount", "integer", True)),
        (0, 1), identity=DEFAULT),
    Table("public", "accounts", (
        Column("id", "integer", False), Column("code", "text", True), Column("owner", "text", False)),
        (0,), (Index("accounts_code", (1,)),), 0),
)
LOW = Publication("low", (
    (ORDERS, ("cmp", 1, 0, "<", 100)), (STOCK, ("cmp", 0, 0, "<", 10)), (ACCOUNTS, ("cmp", 1, 0, "=", "a"))))
HIGH = Publication("high", (
    (ORDERS, ("cmp", 1, 0, ">=", 100)), (STOCK, ("cmp", 0, 0, ">=", 10)), (ACCOUNTS, ("cmp", 1, 0, "<>", "a"))))
NOWHERE = Publication("nowhere", ((ORDERS, ("null", 1)),))
CATALOG = Catalog(TABLES, (LOW, HIGH, NOWHERE), (Subscription("london", (0,)), Subscription("tokyo", (1, 2))))

VIEW: Step = ("view",)

# Each subscriber connects, unless it is connected, and gets all that was committed.
PUMPS: list[Step] = [("open", 0), ("pump", 0), ("open", 1), ("pump", 1), VIEW]

FIRST_ROWS: Step = ("commit", [
    ("insert", ORDERS, (1, 20, "first", True)), ("insert", ORDERS, (2, 250, None, False)),
    ("insert", ORDERS, (3, None, "", None)), ("insert", STOCK, (1, "pen", 10)), ("insert", STOCK, (12, "pen", 20)),
    ("insert", ACCOUNTS, (1, "a", "Ada")), ("insert", ACCOUNTS, (2, "b", None))])
MOVES: Step = ("commit", [
    ("update", ORDERS, (1,), (1, 300, "moved", True)), ("update", ORDERS, (2,), (5, 7, "d'été", False)),
    ("update", STOCK, (1, "pen"), (11, "pen", 9)), ("update", ACCOUNTS, (1,), (1, "z", "Ada")),
    ("update", ACCOUNTS, (2,), (2, "a", "Grace"))])
DELETES: Step = ("commit", [("delete", ORDERS, (3,)), ("delete", STOCK, (12, "pen")), ("delete", ACCOUNTS, (1,))])
EMPTIES: Step = ("commit", [
    ("truncate", [STOCK, ACCOUNTS]), ("insert", STOCK, (4, "hat", 3)), ("insert", ACCOUNTS, (5, "a", "the last"))])
FAULTY: list[Step] = [
    ("commit", [("insert", ORDERS, (9, 9, "nine", None)), ("insert", ORDERS, (1, 20, "again", True))]),
    ("commit", [("delete", ORDERS, (5,)), ("delete", STOCK, (99, "cap"))]),
    ("commit", [("insert", STOCK, (40_000, "cap", 1))]),
    ("commit", []),
]

# The stream comes in pieces, with a status that requests a reply, and a connection that is lost within a frame.
PIECES: list[Step] = [
    ("open", 0), ("hear", 0, 50), ("hear", 0, ALL), ("take", 0), ("keep", 0, True), ("deliver", 0, 100),
    ("report", 0, True), ("hear", 0, ALL), ("deliver", 0, 133), ("deliver", 0, ALL), ("report", 0, False),
    ("hear", 0, 20), ("take", 0), ("deliver", 0, 70), ("lose", 0), VIEW,
]

STEPS: list[Step] = [
    FIRST_ROWS, *PIECES, *PUMPS, MOVES, *PIECES, ("open", 2), *PUMPS, DELETES, *FAULTY, *PUMPS, EMPTIES, *PUMPS,
    ("commit", [("insert", ORDERS, (number, 20 * number, f"order {number}", None)) for number in range(6, 12)]),
    *PUMPS, VIEW,
]


def catalog_text() -> str:
    """Returns the catalog's text."""
    return CatalogText(CATALOG, random.Random(1), False).text()


def script_text(steps: list[Step]) -> str:
    """Returns a script's text."""
    return ScriptText(CATALOG, random.Random(1), False).text(steps)


def script_input(steps: list[Step]) -> bytes:
    """Returns the input of `simulate`, with the certificates that `make` finds."""
    catalog = catalog_text()
    _, certificates = pgshard("make", text=catalog, seconds=SECONDS)
    return parts(catalog, certificates, script_text(steps))
