"""Databases with tables that are not sound, and all regions that reach nobody or several subscribers, worked out by
hand."""

from dataclasses import dataclass, field

NOBODY: list[str] = []


@dataclass
class Faulty:
    """A database, judge's arguments, the regions of each table, and the rows to fill it with."""

    name: str
    setup: str
    regions: dict[str, list[tuple[str, list[str]]]]
    rows: dict[str, str]
    words: list[str] = field(default_factory=list)
    # Parts of judge's lines.
    told: list[str] = field(default_factory=list)
    # The number of regions for which no row is found.
    without_row: int = 0


def fields(column: str, first: int) -> str:
    """Returns every second interval of a column."""
    return " OR ".join(f"{column} BETWEEN {it * 5} AND {it * 5 + 3}" for it in range(first, 16, 2))


FAULTY = [
    # Remainders have the sign of the dividend, and the overlap is an interval.
    Faulty("remainders", """
        CREATE TABLE tenants (id integer PRIMARY KEY, tenant_id integer);
        CREATE TABLE orders (id integer PRIMARY KEY, region text);
        ALTER TABLE tenants REPLICA IDENTITY FULL; ALTER TABLE orders REPLICA IDENTITY FULL;
        CREATE PUBLICATION p FOR TABLE tenants WHERE (tenant_id % 4 = 0),
            orders WHERE (id < 200 AND region IS NOT NULL);
        CREATE PUBLICATION q FOR TABLE tenants WHERE (tenant_id % 4 IN (1, 2, 3)),
            orders WHERE (id >= 100 AND region IS NOT NULL);
    """, {"tenants": [("tenant_id % 4 IN (-3, -2, -1)", NOBODY), ("tenant_id IS NULL", NOBODY)],
          "orders": [("region IS NULL", NOBODY), ("id BETWEEN 100 AND 199 AND region IS NOT NULL", ["p", "q"])]},
        {"tenants": "SELECT n, nullif(n, 20) FROM generate_series(-20, 20) AS n",
         "orders": "SELECT n, CASE WHEN n % 3 = 0 THEN 'eu' END FROM generate_series(90, 210) AS n"},
        told=["    tenant_id % 4 IN (-3, -2, -1) -> nobody, as (0, -1)\n"
              "    tenant_id IS NULL -> nobody, as (0, NULL)\n",
              "    region IS NULL -> nobody, as (0, NULL)\n", " -> p and q, as (100, ''"]),
    # Values that a CHECK constraint refuses are not a gap: no number is negative, and no size is above 9.
    Faulty("checks", """
        CREATE TABLE t (id integer PRIMARY KEY, owner integer NOT NULL CHECK (owner >= 0),
                        size integer NOT NULL CHECK (size BETWEEN 1 AND 9));
        ALTER TABLE t REPLICA IDENTITY FULL;
        CREATE PUBLICATION p FOR TABLE t WHERE (owner % 3 = 0 OR size < 3);
        CREATE PUBLICATION q FOR TABLE t WHERE (owner % 3 = 1 AND size >= 3);
    """, {"t": [("size >= 3 AND owner % 3 = 2", NOBODY)]},
        {"t": "SELECT a * 10 + b, a, b FROM generate_series(0, 9) AS a, generate_series(1, 9) AS b"}),
    # Texts of a list, and all other texts.
    Faulty("labels", """
        CREATE TABLE cities (id integer PRIMARY KEY, region text NOT NULL);
        CREATE TABLE orders (id integer PRIMARY KEY, state text, urgent boolean);
        ALTER TABLE cities REPLICA IDENTITY FULL; ALTER TABLE orders REPLICA IDENTITY FULL;
        CREATE PUBLICATION p FOR TABLE cities WHERE (region IN ('eu', 'uk')), orders WHERE (state IN ('new', 'paid'));
        CREATE PUBLICATION q FOR TABLE cities WHERE (region IN ('us', 'uk')),
            orders WHERE (state = 'sent' OR urgent AND state IN ('paid', 'sent'));
    """, {"cities": [("region NOT IN ('eu', 'uk', 'us')", NOBODY), ("region = 'uk'", ["p", "q"])],
          "orders": [("state NOT IN ('new', 'paid', 'sent')", NOBODY), ("state IS NULL", NOBODY),
                     ("state = 'paid' AND urgent", ["p", "q"])]},
        {"cities": "SELECT n, (ARRAY['eu', 'uk', 'us', 'jp', '', 'EU'])[n % 6 + 1] FROM generate_series(0, 11) AS n",
         "orders": "SELECT n, (ARRAY['new', 'paid', 'sent', 'lost', NULL])[n % 5 + 1], "
                   "(ARRAY[true, false, NULL])[n % 3 + 1] FROM generate_series(0, 29) AS n"}),
    # Days, timestamps, and NaN, which is greater than all numbers.
    Faulty("moments", """
        CREATE TABLE days (id integer PRIMARY KEY, day date NOT NULL);
        CREATE TABLE moments (id integer PRIMARY KEY, at timestamptz NOT NULL);
        CREATE TABLE prices (id integer PRIMARY KEY, price numeric NOT NULL);
        ALTER TABLE days REPLICA IDENTITY FULL; ALTER TABLE moments REPLICA IDENTITY FULL;
        ALTER TABLE prices REPLICA IDENTITY FULL;
        CREATE PUBLICATION p FOR TABLE days WHERE (day < '2024-01-01'), moments WHERE (at <= '2024-01-01 00:00:00+00'),
            prices WHERE (price < 100);
        CREATE PUBLICATION q FOR TABLE days WHERE (day > '2024-01-01'), moments WHERE (at >= '2024-01-01 00:00:00+00'),
            prices WHERE (price >= 100 AND price <= 'Infinity');
    """, {"days": [("day = '2024-01-01'", NOBODY)], "moments": [("at = '2024-01-01 00:00:00+00'", ["p", "q"])],
          "prices": [("price > 'Infinity'", NOBODY)]},
        {"days": "SELECT n, date '2023-12-25' + n FROM generate_series(0, 14) AS n",
         "moments": "SELECT n, timestamptz '2023-12-31 22:00:00+00' + n * interval '1 hour' "
                    "FROM generate_series(0, 4) AS n",
         "prices": "SELECT n, (ARRAY[-1, 99.99, 100, 1e9, 'NaN', 'Infinity', '-Infinity']::numeric[])[n] "
                   "FROM generate_series(1, 7) AS n"}),
    # Two columns, each with a gap of its own.
    Faulty("grids", """
        CREATE TABLE t (id integer PRIMARY KEY, a integer, b integer NOT NULL);
        ALTER TABLE t REPLICA IDENTITY FULL;
        CREATE PUBLICATION p FOR TABLE t WHERE (a < 5 AND b < 5);
        CREATE PUBLICATION q FOR TABLE t WHERE (a >= 5 AND b >= 3);
        CREATE PUBLICATION r FOR TABLE t WHERE (a < 10 AND b = 4);
    """, {"t": [("a < 5 AND b >= 5", NOBODY), ("a >= 5 AND b < 3", NOBODY), ("a IS NULL", NOBODY),
                ("a < 5 AND b = 4", ["p", "r"]), ("a BETWEEN 5 AND 9 AND b = 4", ["q", "r"])]},
        {"t": "SELECT a * 20 + b, nullif(a, 13), b FROM generate_series(0, 13) AS a, generate_series(0, 9) AS b"}),
    # A function about which nothing is known, the order of two columns, and bits.
    Faulty("expressions", """
        CREATE TABLE names (id integer PRIMARY KEY, name text);
        CREATE TABLE spans (id integer PRIMARY KEY, low integer NOT NULL, high integer NOT NULL);
        CREATE TABLE flags (id integer PRIMARY KEY, flags integer NOT NULL);
        ALTER TABLE names REPLICA IDENTITY FULL; ALTER TABLE spans REPLICA IDENTITY FULL;
        ALTER TABLE flags REPLICA IDENTITY FULL;
        CREATE PUBLICATION p FOR TABLE names WHERE (lower(name) = 'a'), spans WHERE (low < high),
            flags WHERE (flags & 4 = 4);
        CREATE PUBLICATION q FOR TABLE names WHERE (lower(name) <> 'a'), spans WHERE (low > high),
            flags WHERE (flags & 6 = 2 OR flags & 6 = 6);
    """, {"names": [("lower(name) IS NULL", NOBODY)], "spans": [("high = low", NOBODY)],
          "flags": [("(flags & 4) = 0 AND (flags & 2) = 0", NOBODY),
                    ("(flags & 4) = 4 AND (flags & 2) = 2", ["p", "q"])]},
        {"names": "SELECT n, (ARRAY['a', 'A', 'b', '', NULL])[n] FROM generate_series(1, 5) AS n",
         "spans": "SELECT a * 5 + b, a, b FROM generate_series(0, 4) AS a, generate_series(0, 4) AS b",
         "flags": "SELECT n, n - 9 FROM generate_series(0, 20) AS n"}),
    # A table that is copied to all subscribers, and one that is published in part.
    Faulty("purposes", """
        CREATE TABLE rates (id integer PRIMARY KEY);
        CREATE TABLE drafts (id integer PRIMARY KEY);
        CREATE PUBLICATION p FOR TABLE rates WHERE (id < 10), drafts WHERE (id < 10);
        CREATE PUBLICATION q FOR TABLE rates WHERE (id > 0), drafts WHERE (id BETWEEN 9 AND 20);
    """, {"rates": [("id < 1", ["p"]), ("id >= 10", ["q"])], "drafts": [("id = 9", ["p", "q"])]},
        {"rates": "SELECT n FROM generate_series(-5, 15) AS n", "drafts": "SELECT n FROM generate_series(-5, 25) AS n"},
        words=["--copied", "rates", "--partial", "drafts"],
        told=["    id < 1 -> p, not q, as (0)\n    id >= 10 -> q, not p, as (10)\n"]),
    # The bounds of partitions, which allow no row below 0.
    Faulty("partitions", """
        CREATE TABLE events (id integer NOT NULL, day integer NOT NULL, PRIMARY KEY (id, day)) PARTITION BY RANGE (day);
        CREATE TABLE first PARTITION OF events FOR VALUES FROM (0) TO (100);
        CREATE TABLE second PARTITION OF events FOR VALUES FROM (100) TO (200);
        CREATE PUBLICATION p FOR TABLE events WHERE (day < 50) WITH (publish_via_partition_root = true);
        CREATE PUBLICATION q FOR TABLE events WHERE (day BETWEEN 40 AND 150) WITH (publish_via_partition_root = true);
    """, {"events": [("day >= 151", NOBODY), ("day BETWEEN 40 AND 49", ["p", "q"])]},
        {"events": "SELECT n, n FROM generate_series(0, 199) AS n"}),
    # Of 60 tenants, half, each in a region of its own, are in two filters.
    Faulty("many", f"""
        CREATE TABLE t (id integer PRIMARY KEY, tenant integer NOT NULL);
        ALTER TABLE t REPLICA IDENTITY FULL;
        CREATE PUBLICATION p FOR TABLE t;
        CREATE PUBLICATION q FOR TABLE t WHERE ({' OR '.join(
            f'tenant BETWEEN {n * 10} AND {n * 10 + 4}' for n in range(30))});
    """, {"t": [(f"tenant BETWEEN {n * 10} AND {n * 10 + 4}", ["p", "q"]) for n in range(30)]},
        {"t": "SELECT n, n FROM generate_series(-3, 320) AS n"},
        told=["    and 10 more such regions, of which --json lists 10\n"]),
    # The dark squares of a board.
    Faulty("board", f"""
        CREATE TABLE t (id integer PRIMARY KEY, a integer NOT NULL, b integer NOT NULL);
        ALTER TABLE t REPLICA IDENTITY FULL;
        CREATE PUBLICATION p FOR TABLE t;
        CREATE PUBLICATION q FOR TABLE t WHERE ({' OR '.join(
            f"({fields('a', first)}) AND ({fields('b', first)})" for first in (0, 1))});
    """, {"t": [(f"a BETWEEN {a * 5} AND {a * 5 + 3} AND b BETWEEN {b * 5} AND {b * 5 + 3}", ["p", "q"])
                for a in range(16) for b in range(16) if (a + b) % 2 == 0]},
        {"t": "SELECT a * 100 + b, a, b FROM generate_series(-1, 81) AS a, generate_series(-1, 81) AS b"},
        words=["--count"],
        told=["    and 108 more such regions, of which --json lists 108\n"
              "    of 6,889 rows 0 go to nobody, 2,048 to several\n"]),
]
