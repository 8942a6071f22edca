"""A shop with three tables that have different replica identities, divided over two subscribers, and a script of
commits."""

from .publisher import Command, Delete, Insert, Subscriber, Table, Truncate, Update
from .sharding import Sharding

CATALOG = """\
CREATE TABLE orders (id bigint PRIMARY KEY, region integer, cents bigint NOT NULL, note text, is_paid boolean);
ALTER TABLE orders REPLICA IDENTITY FULL;
CREATE TABLE stock (place smallint, article text, amount integer NOT NULL, PRIMARY KEY (place, article));
CREATE TABLE accounts (id integer PRIMARY KEY, code text NOT NULL, owner text);
CREATE UNIQUE INDEX accounts_code ON accounts (code);
ALTER TABLE accounts REPLICA IDENTITY USING INDEX accounts_code;
CREATE PUBLICATION low FOR TABLE orders WHERE (region < 100), stock WHERE (place < 10), accounts WHERE (code = 'a');
CREATE PUBLICATION high FOR TABLE orders WHERE (region >= 100), stock WHERE (place >= 10), accounts WHERE (code <> 'a');
CREATE PUBLICATION nowhere FOR TABLE orders WHERE (region IS NULL);
CREATE SUBSCRIPTION london CONNECTION 'host=london' PUBLICATION low;
CREATE SUBSCRIPTION tokyo CONNECTION 'host=tokyo' PUBLICATION high, nowhere;
"""

TABLES = (
    Table(
        "orders",
        (("id", "bigint"), ("region", "integer"), ("cents", "bigint"), ("note", "text"), ("is_paid", "boolean")),
        key=(0,), letter="f", identity=(0, 1, 2, 3, 4)),
    Table(
        "stock", (("place", "smallint"), ("article", "text"), ("amount", "integer")),
        key=(0, 1), letter="d", identity=(0, 1)),
    Table("accounts", (("id", "integer"), ("code", "text"), ("owner", "text")), key=(0,), letter="i", identity=(1,)),
)

LONDON = Subscriber("london", ("low",), {
    "orders": lambda row: row[1] is not None and row[1] < 100,
    "stock": lambda row: row[0] < 10,
    "accounts": lambda row: row[1] == "a",
})
TOKYO = Subscriber("tokyo", ("high", "nowhere"), {
    "orders": lambda row: row[1] is None or row[1] >= 100,
    "stock": lambda row: row[0] >= 10,
    "accounts": lambda row: row[1] != "a",
})

# The filters of the catalog in SQL; those of one subscriber are joined.
FILTERS = {
    "london": {"orders": "region < 100", "stock": "place < 10", "accounts": "code = 'a'"},
    "tokyo": {"orders": "region >= 100 OR region IS NULL", "stock": "place >= 10", "accounts": "code <> 'a'"},
}

COMMITS: list[list[Command]] = [
    [
        Insert("orders", (1, 20, 500, "first", True)),
        Insert("orders", (2, 250, 700, None, False)),
        Insert("orders", (3, None, -1, "", None)),
        Insert("stock", (1, "pen", 10)),
        Insert("stock", (12, "pen", 20)),
        Insert("accounts", (1, "a", "Ada")),
        Insert("accounts", (2, "b", None)),
    ],
    # Rows that stay with their subscriber: with the same identity, and with another one.
    [Update("orders", (1,), (1, 30, 500, "d'été", None)), Update("stock", (1, "pen"), (1, "pen", 9))],
    [Update("stock", (12, "pen"), (13, "ink", 21)), Update("accounts", (2,), (20, "c", "Grace"))],
    # Rows that move to the other subscriber; some of them move back in the same commit.
    [Update("orders", (1,), (1, 300, 500, "moved", True)), Update("orders", (2,), (2, 7, 700, "moved", False))],
    [Update("stock", (1, "pen"), (11, "pen", 9)), Update("accounts", (1,), (1, "z", "Ada"))],
    [
        Update("orders", (3,), (3, 5, -1, "there", None)),
        Update("orders", (3,), (4, None, -2, "and back", None)),
        Update("accounts", (20,), (2, "a", "Grace")),
    ],
    # Changes for one subscriber only.
    [Insert("stock", (2, "cap", 1)), Insert("stock", (3, "cap", 2)), Delete("stock", (2, "cap"))],
    [Delete("orders", (2,)), Delete("accounts", (1,))],
    [Truncate(("stock", "accounts")), Insert("stock", (4, "hat", 3)), Insert("accounts", (5, "a", None))],
    [Insert("orders", (number, 10 * number, number, f"order {number}", None)) for number in range(5, 25)],
    [Update("orders", (number,), (number, 200 - 10 * number, number, None, True)) for number in range(5, 25)],
    [Truncate(("accounts",))],
    [
        Insert("accounts", (1, "a", "the last")),
        Insert("accounts", (2, "b", "the last")),
        Update("stock", (4, "hat"), (40, "hat", 4)),
        Insert("stock", (0, "", -1)),
        Delete("orders", (24,)),
    ],
]

SHOP = Sharding(CATALOG, TABLES, (LONDON, TOKYO), COMMITS)
