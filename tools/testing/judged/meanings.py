"""Databases for the meaning of filters: which function the server calls, where it is NULL, and where it fails. The
right answer for each table is worked out by hand."""

from judged.cases import Case

MEANINGS = [
    # upper of a range is NULL if the range is empty or unbounded; upper of a text is NULL if the text is.
    Case("upper_of_ranges", """
        CREATE TABLE bookings (id integer PRIMARY KEY, during tsrange NOT NULL);
        CREATE TABLE split (id integer PRIMARY KEY, during tsrange NOT NULL);
        CREATE TABLE names (id integer PRIMARY KEY, name text NOT NULL);
        ALTER TABLE bookings REPLICA IDENTITY FULL; ALTER TABLE split REPLICA IDENTITY FULL;
        ALTER TABLE names REPLICA IDENTITY FULL;
        CREATE PUBLICATION ended FOR TABLE bookings WHERE (upper(during) IS NOT NULL),
            split WHERE (upper(during) IS NOT NULL), names WHERE (upper(name) IS NOT NULL);
        CREATE PUBLICATION others FOR TABLE split WHERE (upper(during) IS NULL);
    """, {"bookings": "not sound:", "split": "sound", "names": "sound"}, told=["during = 'empty'"]),
    # The length of a text is an integer; that of a path is not, and it fails if it is too large for a float.
    Case("length_of_paths", """
        CREATE TABLE paths (id integer PRIMARY KEY, way path NOT NULL);
        CREATE TABLE texts (id integer PRIMARY KEY, way text NOT NULL);
        ALTER TABLE paths REPLICA IDENTITY FULL; ALTER TABLE texts REPLICA IDENTITY FULL;
        CREATE PUBLICATION short FOR TABLE paths WHERE (length(way) <= 5), texts WHERE (length(way) <= 5);
        CREATE PUBLICATION long FOR TABLE paths WHERE (length(way) >= 6), texts WHERE (length(way) >= 6);
    """, {"paths": "not read", "texts": "sound"}, told=["length(path) is not in judge's table"]),
    # = compares the areas of boxes, and ignores trailing blanks of a char(3).
    Case("equal_boxes", """
        CREATE TABLE boxes (id integer PRIMARY KEY, place box NOT NULL);
        CREATE TABLE codes (id integer PRIMARY KEY, code char(3) NOT NULL);
        ALTER TABLE boxes REPLICA IDENTITY FULL; ALTER TABLE codes REPLICA IDENTITY FULL;
        CREATE PUBLICATION one FOR TABLE boxes WHERE (place = '(1,1),(0,0)'), codes WHERE (code = 'a ');
        CREATE PUBLICATION two FOR TABLE boxes WHERE (NOT place = '(1,1),(0,0)'), codes WHERE (code <> 'a');
    """, {"boxes": "not read", "codes": "sound"}, told=["=(box,box) is not in judge's table"]),
    # x = ANY of an empty list is FALSE, even if x is NULL, so its NOT is TRUE.
    Case("lists_of_rows", """
        CREATE TABLE users (id integer PRIMARY KEY, kind integer, allowed integer[] NOT NULL);
        CREATE TABLE whole (id integer PRIMARY KEY, kind integer, allowed integer[] NOT NULL);
        CREATE TABLE fixed (id integer PRIMARY KEY, allowed integer[]);
        ALTER TABLE users REPLICA IDENTITY FULL; ALTER TABLE whole REPLICA IDENTITY FULL;
        ALTER TABLE fixed REPLICA IDENTITY FULL;
        CREATE PUBLICATION yes FOR TABLE users WHERE (kind = ANY (allowed)), whole WHERE (kind = ANY (allowed)),
            fixed WHERE (1 = ANY (allowed));
        CREATE PUBLICATION no FOR TABLE users WHERE (NOT (kind = ANY (allowed))),
            whole WHERE (NOT (kind = ANY (allowed))), fixed WHERE (NOT (1 = ANY (allowed)));
        CREATE PUBLICATION unknown FOR TABLE users WHERE (kind IS NULL),
            whole WHERE ((kind = ANY (allowed)) IS NULL), fixed WHERE (allowed IS NULL);
    """, {"users": "not sound: no unknown", "whole": "sound", "fixed": "not sound:"}),
    # With a pattern that the server refuses, each row fails.
    Case("malformed_patterns", """
        CREATE TABLE mails (address text PRIMARY KEY);
        CREATE TABLE good (address text PRIMARY KEY);
        CREATE TABLE similar_ones (address text PRIMARY KEY);
        CREATE PUBLICATION one FOR TABLE mails WHERE (address ~ '*@eu.example.com'), good WHERE (address ~ '@eu\\.'),
            similar_ones WHERE (address SIMILAR TO '%@eu.%');
        CREATE PUBLICATION two FOR TABLE mails WHERE (address !~ '*@eu.example.com'), good WHERE (address !~ '@eu\\.'),
            similar_ones WHERE (address NOT SIMILAR TO '%@eu.%');
    """, {"mails": "not read", "good": "sound", "similar_ones": "sound"},
        told=["a pattern that is no constant, or that the server refuses"]),
    # Constants that the server computes once.
    Case("computed_constants", """
        CREATE TABLE sums (id integer PRIMARY KEY);
        CREATE TABLE halves (id integer PRIMARY KEY);
        CREATE PUBLICATION low FOR TABLE sums WHERE (id < 2 * 50), halves WHERE (id < 1 / 0);
        CREATE PUBLICATION high FOR TABLE sums WHERE (id >= abs(-100)), halves WHERE (id >= 1 / 0);
    """, {"sums": "sound", "halves": "not read"}, told=["the server cannot evaluate it, so the filter fails at each row"]),
    # Ordered rows, the greatest and the least.
    Case("rows_in_order", """
        CREATE TABLE pages (book integer NOT NULL, page integer NOT NULL, PRIMARY KEY (book, page));
        CREATE TABLE maybe (book integer NOT NULL, page integer);
        CREATE TABLE tops (id integer PRIMARY KEY, a integer, b integer);
        CREATE TABLE nones (id integer PRIMARY KEY, a integer, b integer);
        ALTER TABLE maybe REPLICA IDENTITY FULL; ALTER TABLE tops REPLICA IDENTITY FULL;
        ALTER TABLE nones REPLICA IDENTITY FULL;
        CREATE PUBLICATION early FOR TABLE pages WHERE ((book, page) < (5, 10)), maybe WHERE ((book, page) < (5, 10)),
            tops WHERE (greatest(a, b, 0) < 10), nones WHERE (greatest(a, b) < 10);
        CREATE PUBLICATION late FOR TABLE pages WHERE ((book, page) >= (5, 10)), maybe WHERE ((book, page) >= (5, 10)),
            tops WHERE (a >= 10 OR b >= 10), nones WHERE (a >= 10 OR b >= 10);
    """, {"pages": "sound", "maybe": "not sound:", "tops": "sound", "nones": "not sound:"}, told=["book = 5, page = NULL"]),
    # Bits of any width: one bit, two bits far apart, and the sign.
    Case("wide_masks", """
        CREATE TABLE flags (id integer PRIMARY KEY, flags integer NOT NULL);
        CREATE TABLE gap (id integer PRIMARY KEY, flags integer NOT NULL);
        CREATE TABLE far (id integer PRIMARY KEY, flags bigint NOT NULL);
        CREATE TABLE snowflakes (id bigint PRIMARY KEY);
        CREATE TABLE beside (id integer PRIMARY KEY, flags integer NOT NULL CHECK (flags BETWEEN 0 AND 67108863));
        ALTER TABLE flags REPLICA IDENTITY FULL; ALTER TABLE gap REPLICA IDENTITY FULL;
        ALTER TABLE far REPLICA IDENTITY FULL; ALTER TABLE beside REPLICA IDENTITY FULL;
        CREATE PUBLICATION p0 FOR TABLE flags WHERE ((flags & 16777216) = 0), gap WHERE ((flags & 1073741824) = 0),
            far WHERE ((flags & 4611686018427387905) = 0), snowflakes WHERE ((id >> 22) & 3 = 0),
            beside WHERE ((flags & 50331648) = 0 AND flags < 16777216);
        CREATE PUBLICATION p1 FOR TABLE flags WHERE ((flags & 16777216) <> 0),
            gap WHERE ((flags & 1073741825) = 1073741825), far WHERE ((flags & 4611686018427387905) = 1),
            snowflakes WHERE ((id >> 22) & 3 = 1), beside WHERE ((flags & 50331648) = 16777216);
        CREATE PUBLICATION p2 FOR TABLE far WHERE ((flags & 4611686018427387904) <> 0),
            snowflakes WHERE ((id >> 22) & 3 >= 2), beside WHERE (flags >= 33554432);
    """, {"flags": "sound", "gap": "not sound:", "far": "sound", "snowflakes": "sound", "beside": "sound"},
        told=["flags = 1073741824"],
        regions={"flags": [("(flags & 16777216) = 0", "p0"), ("(flags & 16777216) = 16777216", "p1")]},
        rows={"flags": "SELECT n, (random() * 2147483647)::integer * (n % 3 - 1) FROM generate_series(1, 200) AS n"}),
    # Filters that fail for some row: the row is reported, and the others are divided all the same.
    Case("failing_rows", """
        CREATE TABLE shards (id integer PRIMARY KEY);
        CREATE TABLE positive (id integer PRIMARY KEY CHECK (id > 0));
        CREATE TABLE next (id integer PRIMARY KEY);
        CREATE TABLE doubled (id bigint PRIMARY KEY);
        CREATE TABLE guarded (id integer PRIMARY KEY);
        CREATE PUBLICATION p0 FOR TABLE shards WHERE (abs(id) % 4 = 0), positive WHERE (abs(id) % 4 = 0),
            next WHERE (id + 1 > 5), doubled WHERE (id * 2 < 10), guarded WHERE (id > 1000 OR id * 1000 > 5);
        CREATE PUBLICATION p1 FOR TABLE shards WHERE (mod(abs(id), 4) = 1), positive WHERE (mod(abs(id), 4) = 1),
            next WHERE (id + 1 <= 5), doubled WHERE (id * 2 >= 10), guarded WHERE (id <= 0);
        CREATE PUBLICATION p2 FOR TABLE shards WHERE (abs(id) % 4 = 2), positive WHERE (abs(id) % 4 = 2);
        CREATE PUBLICATION p3 FOR TABLE shards WHERE (abs(id) % 4 = 3), positive WHERE (abs(id) % 4 = 3);
    """, {"shards": "sound", "positive": "sound", "next": "sound", "doubled": "sound", "guarded": "sound"},
        told=["a row with id = -2147483648 stops the replication of p0, p1, p2, p3: the filter fails",
              "a row with id = 2147483647 stops the replication of p0, p1: the filter fails"]),
    # Filters that never fail because of a type, a CHECK or a preceding condition; also for two columns.
    Case("never_failing", """
        CREATE TABLE quotients (id integer PRIMARY KEY);
        CREATE TABLE tenants (id integer PRIMARY KEY, tenant integer);
        CREATE TABLE lines (id integer PRIMARY KEY, price integer NOT NULL CHECK (price BETWEEN 0 AND 10000),
            qty integer NOT NULL CHECK (qty BETWEEN 0 AND 10000));
        CREATE TABLE checked (id integer PRIMARY KEY CHECK (id < 1000));
        CREATE TABLE before (id integer PRIMARY KEY);
        ALTER TABLE tenants REPLICA IDENTITY FULL; ALTER TABLE lines REPLICA IDENTITY FULL;
        CREATE PUBLICATION p0 FOR TABLE quotients WHERE ((id / 1000) % 4 = 0), tenants WHERE (coalesce(tenant, 0) % 3 = 0),
            lines WHERE (price * qty < 500), checked WHERE (id + 5 > 7), 
            before WHERE (id BETWEEN -1000 AND 1000 AND id * -5 < 20);
        CREATE PUBLICATION p1 FOR TABLE quotients WHERE ((id / 1000) % 4 <> 0),
            tenants WHERE (coalesce(tenant, 0) % 3 <> 0), lines WHERE (price * qty >= 500), checked WHERE (id + 5 <= 7),
            before WHERE (id NOT BETWEEN -1000 AND 1000 OR id * -5 >= 20);
    """, {"quotients": "sound", "tenants": "sound", "lines": "sound", "checked": "sound", "before": "sound"},
        words=["--strict"]),
    # Two columns whose product may be too large, and a sum for which that is not known.
    Case("failing_products", """
        CREATE TABLE lines (id integer PRIMARY KEY, price integer NOT NULL, qty integer NOT NULL);
        CREATE TABLE sums (id integer PRIMARY KEY, a bigint, b bigint);
        CREATE TABLE decimals (id integer PRIMARY KEY, price numeric(10,2) NOT NULL, qty integer NOT NULL);
        ALTER TABLE lines REPLICA IDENTITY FULL; ALTER TABLE sums REPLICA IDENTITY FULL;
        ALTER TABLE decimals REPLICA IDENTITY FULL;
        CREATE PUBLICATION p0 FOR TABLE lines WHERE (price * qty < 500), sums WHERE (a + b > 0),
            decimals WHERE (price * qty > 9.5);
        CREATE PUBLICATION p1 FOR TABLE lines WHERE (price * qty >= 500), sums WHERE (a + b <= 0 OR a IS NULL OR b IS NULL),
            decimals WHERE (NOT price * qty > 9.5);
    """, {"lines": "sound", "sums": "sound", "decimals": "sound"},
        told=["a row with price = -2147483648, qty = -2147483648 stops the replication of p0, p1: the filter fails",
              "a row with a = -9223372036854775808, b = -9223372036854775808 stops the replication of p0, p1"]),
    # Regions are SQL that the server accepts: a char compared as text keeps the constant's blanks, and a part of a date
    # has its own form.
    Case("regions_as_sql", """
        CREATE TABLE people (id integer PRIMARY KEY, country char(2) NOT NULL);
        CREATE TABLE days (id integer PRIMARY KEY, day date NOT NULL);
        CREATE TABLE places (id integer PRIMARY KEY, name text NOT NULL);
        ALTER TABLE people REPLICA IDENTITY FULL; ALTER TABLE days REPLICA IDENTITY FULL;
        ALTER TABLE places REPLICA IDENTITY FULL;
        CREATE PUBLICATION one FOR TABLE people WHERE (country::text < 'D '), places WHERE (position('a' in name) < 3),
            days WHERE (extract(year from day) < 2024 OR extract(year from day) IS NULL);
        CREATE PUBLICATION two FOR TABLE people WHERE (country::text >= 'D '), places WHERE (position('a' in name) >= 3),
            days WHERE (extract(year from day) >= 2024);
    """, {"people": "sound", "days": "sound", "places": "sound"},
        regions={"people": [("country::text < 'D '", "one"), ("country::text >= 'D '", "two")],
                 "days": [("day >= '2024-01-01'", "two"), ("day < '2024-01-01'", "one")],
                 "places": [("pg_catalog.position(name, 'a') < 3", "one"),
                            ("pg_catalog.position(name, 'a') >= 3", "two")]},
        rows={"people": "SELECT n, (ARRAY['D', 'DE', 'C', '', 'E'])[n] FROM generate_series(1, 5) AS n",
              "days": "SELECT n, date '2023-12-25' + n FROM generate_series(0, 20) AS n",
              "places": "SELECT n, substr('bbbab', n) FROM generate_series(1, 6) AS n"}),
    # Two functions of which judge does not know that they are one, and what it advises.
    Case("two_lengths", """
        CREATE TABLE words (word text PRIMARY KEY);
        CREATE TABLE advised (word text PRIMARY KEY);
        CREATE PUBLICATION short FOR TABLE words WHERE (length(word) < 5), advised WHERE (length(word) < 5);
        CREATE PUBLICATION long FOR TABLE words WHERE (char_length(word) >= 5), advised WHERE (NOT length(word) < 5);
        CREATE PUBLICATION none FOR TABLE words WHERE (length(word) IS NULL), advised WHERE (length(word) IS NULL);
    """, {"words": "not decided", "advised": "sound"},
        told=["judge does not know how the values of char_length(word) and length(word) are related; write the filters "
              "with one of these expressions only: a condition on it, NOT of that condition, and IS NULL of the"]),
]
