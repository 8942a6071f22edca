"""Filters of each form that judge rewrites, over columns of each type, with rows at the limits of the type."""

from dataclasses import dataclass


@dataclass
class Group:
    """A table, its rows in SQL, and filters on it."""

    columns: str
    rows: list[str]
    filters: list[str]
    # A query that adds rows.
    filling: str = ""


def values(*columns: list[str]) -> list[str]:
    """Returns rows in which each column in turn has all of its values, while the others have their first one."""
    found = []
    for place, listed in enumerate(columns):
        for value in listed:
            row = [it[0] for it in columns]
            row[place] = value
            found.append(f"({', '.join(row)})")
    return found


def pairs(one: list[str], other: list[str]) -> list[str]:
    return [f"({a}, {b})" for a in one for b in other]


SMALL = ["NULL", "-32768", "-32767", "-9", "-8", "-5", "-4", "-3", "-2", "-1", "0", "1", "2", "3", "4", "5", "7", "8",
         "12", "32766", "32767"]
MIDDLE = [*SMALL, "-2147483648", "-2147483647", "2147483646", "2147483647", "1023", "1024", "-1023", "-1024"]
LARGE = [*MIDDLE, "-9223372036854775807", "9223372036854775806", "9223372036854775807", "3000000000", "-3000000000"]
DATES = ["NULL", "'-infinity'", "'4714-11-24 BC'", "'0001-12-31 BC'", "'0001-01-01'", "'1999-12-31'", "'2000-01-01'",
         "'2000-01-02'", "'2023-12-31'", "'2024-01-01'", "'2024-02-29'", "'5874897-12-31'", "'infinity'"]
TIMES = ["NULL", "'-infinity'", "'4714-11-24 00:00:00 BC'", "'1999-12-31 23:59:59.999999'", "'2000-01-01 00:00:00'",
         "'2023-12-31 23:59:59.999999'", "'2024-01-01 00:00:00'", "'2024-01-01 00:00:00.000001'",
         "'2024-01-01 12:00:00'", "'2024-01-02 00:00:00'", "'294276-12-31 23:59:59.999999'", "'infinity'"]
MONEY = ["NULL", "-99999999.99", "-0.01", "0", "0.01", "1", "99.99", "100", "100.01", "99999999.99", "'NaN'"]
UUIDS = ["NULL", "'00000000-0000-0000-0000-000000000000'", "'00000000-0000-0000-0000-000000000001'",
         "'7fffffff-ffff-ffff-ffff-ffffffffffff'", "'80000000-0000-0000-0000-000000000000'",
         "'80000000-0000-0000-0000-000000000001'", "'a0eebc99-9c0b-4ef8-bb6d-6bb9bd380a11'",
         "'ffffffff-ffff-ffff-ffff-ffffffffffff'"]
TEXTS = ["NULL", "''", "' '", "'a'", "'A'", "'ab'", "'b'", "'it''s'", "'z'", "'é'", "'%'", "'abcde'"]
TRUTHS = ["NULL", "TRUE", "FALSE"]

GROUPS = [
    Group("i integer, s smallint", values(MIDDLE, SMALL), [
        "i = 5", "i <> 5", "i < 5", "i >= 5", "i BETWEEN 1 AND 9", "i NOT BETWEEN 1 AND 9", "i > 1 AND i < 8",
        "i IN (1, 5, NULL)", "i NOT IN (1, 5)", "i = 2147483648", "i < 3000000000", "i > 5.5", "i = 5.0", "i <= 5.5",
        "s < 32767", "s >= 32767", "s > -32768", "s = 40000", "i = NULL", "i IS DISTINCT FROM 5", "i IS NULL OR s = 1",
    ]),
    Group("i integer, b bigint", values(MIDDLE, LARGE), [
        "i % 4 = 1", "i % 4 = -1", "mod(i, 4) = 3", "(i & 3) = 0", "(i & 3) = 2", "i & 7 < 3", "(i % 4 + 4) % 4 = 1",
        "abs(i % 4) = 3", "i % 8 IN (1, 5)", "b % 3000000000 = 5", "b % 4 <> 0", "mod(b, 8) >= 4", "(b & 1023) < 512",
        "i % 1 = 0", "-(i % 4) = 1", "(i % 4) * 2 > 3", "(i % 2 = 0) = (i % 4 = 0)", "i % 4 IS NULL", "(6 & i) = 2",
        "i / 4 = 1", "i / 4 = 0", "i / 4 < -1", "i / 4 >= 0", "i / 4 <> -1", "b / 1000 <= 2.5", "b / 3000000000 = -1",
    ]),
    Group("b bigint", values(LARGE), [
        "b >= 0 AND b % 4 = 1", "b < 0", "b > -9223372036854775808", "b = 9223372036854775807",
        "b < 99999999999999999999",
        "b >= 9223372036854775807", "b <> -9223372036854775807",
    ]),
    Group("d date", values(DATES), [
        "d < '2024-01-01'", "d >= '2024-01-01'", "d = 'infinity'", "d < 'infinity'", "d > '-infinity'",
        "d <= '-infinity'", "d BETWEEN '2023-12-31' AND '2024-02-29'", "d NOT IN ('2000-01-01', '2024-01-01')",
        "d < '2024-01-01 12:00:00'::timestamp", "d = '2024-01-01 00:00:00'::timestamp",
        "d = '2024-01-01 00:00:01'::timestamp", "d >= '2023-12-31 00:00:00.000001'::timestamp",
        "d <> '2024-01-01 00:00:01'::timestamp", "d > '0001-12-31 BC'", "d IS DISTINCT FROM '2000-01-01'",
        "extract(year FROM d) = 2024",
    ]),
    Group("t timestamp, z timestamptz, m timestamp(0)", values(TIMES, TIMES, [
        "NULL", "'-infinity'", "'2023-12-31 23:59:59'", "'2024-01-01 00:00:00'", "'2024-01-01 00:00:01'",
        "'infinity'"]), [
        "t < '2024-01-01'", "t >= '2024-01-01'::date", "t::date = '2024-01-01'", "t::date < '2024-01-01'",
        "t::date > '2024-01-01'", "t::date <> '2024-01-01'", "t::date = 'infinity'", "t::date <= '2024-01-01'",
        "z < '2024-01-01 00:00:00+00'", "z >= '2024-01-01 00:00:00+02'", "z = 'infinity'",
        "z AT TIME ZONE 'UTC' < '2024-01-01'", "m <= '2024-01-01 00:00:00.5'", "m = '2024-01-01 00:00:00.5'",
        "m > '2023-12-31 23:59:59.999999'", "m BETWEEN '-infinity' AND '2024-01-01'",
    ]),
    Group("n numeric(10,2), u numeric, f double precision, r real, c time", values(
        MONEY, [*MONEY, "'Infinity'", "'-Infinity'", "1e30"], [*MONEY, "'Infinity'", "'-Infinity'", "0.1"],
        [*MONEY[:1], *MONEY[2:8], "0.1"], ["NULL", "'00:00:00'", "'08:00:00'", "'24:00:00'"]), [
        "n < 100", "n >= 100.005", "n = 0.01", "n = 0.001", "n = 'NaN'", "n > 99999999.99", "n <= 'NaN'",
        "u < 100", "u = 'Infinity'", "u BETWEEN -0.01 AND 99.99", "f < 0.1", "f = 'NaN'", "f >= '-Infinity'",
        "r > 0.1::real", "r = 0.1", "c < '08:00:00'", "c >= '24:00:00'", "n IN (0, 1, 100)",
    ]),
    Group("k uuid, l uuid", values(UUIDS, UUIDS), [
        "k = 'A0EEBC99-9C0B-4EF8-BB6D-6BB9BD380A11'", "k <> '00000000-0000-0000-0000-000000000000'",
        "k IN ('00000000-0000-0000-0000-000000000001', 'ffffffff-ffff-ffff-ffff-ffffffffffff')",
        "l < '80000000-0000-0000-0000-000000000000'", "l >= '80000000-0000-0000-0000-000000000001'",
        "l <= '00000000-0000-0000-0000-000000000000'", "l > 'ffffffff-ffff-ffff-ffff-ffffffffffff'",
    ]),
    Group("c char(3), v varchar(3), t text", values(
        ["NULL", "''", "'a'", "'a  '", "'abc'", "'é'"], ["NULL", "''", "'a'", "'a  '", "'abc'"], TEXTS), [
        "c = 'a'", "c = 'a  '", "c <> 'abc'", "c IN ('a', 'abcd')", "c::text = 'a '", "c IS NULL", "c < 'b'", "c >= 'a'",
        "v = 'a'",
        "v = 'abcd'", "v <> 'a  '", "v::text IN ('a', 'abc')", "t = 'it''s'", "t <> ''", "t IN ('a', 'b', NULL)",
        "t IS DISTINCT FROM 'a'", "nullif(t, 'a') IS NULL", "coalesce(t, 'a') = 'a'", "coalesce(v, c) = 'a'",
    ]),
    Group("t text, w text", values(TEXTS, TEXTS), [
        "t < 'b'", "t >= 'a' AND t < 'b'", "t = 'ab'", "t COLLATE \"C\" > ''", "t <= 'z'", "lower(t) = 'a'",
        "lower(t) < 'b'", "w LIKE 'a%'", "w NOT LIKE 'a%'", "w ILIKE 'A%'", "w ~ '^a'", "length(w) >= 2",
        "hashtext(w) % 4 = 0", "mod(hashtext(w), 4) IN (1, -1)", "left(w, 1) = 'a'", "substr(w, 1, 1) = 'a'",
        "split_part(w, 'b', 2) = ''", "w LIKE ANY (ARRAY['a%', '%b'])",
        "starts_with(w, 'a')", "t || w = 'aab'",
    ]),
    Group("a integer, b bigint, x date, y date", [
        *(f"({a}, {b}, NULL, '2024-01-01')" for a in MIDDLE[:12] for b in MIDDLE[4:14]),
        *(f"(1, 2, {a}, {b})" for a in DATES for b in DATES)], [
        "a < b", "a >= b", "b <= a", "a = b", "a <> b", "x < y", "NOT (y > x)", "x IS NOT DISTINCT FROM y", "a = a",
    ]),
    Group("o boolean, p boolean, i integer", [
        f"({a}, {b}, {i})" for a in TRUTHS for b in TRUTHS for i in ("NULL", "0", "1", "2")], [
        "o", "NOT o", "o = p", "o <> p", "o IS DISTINCT FROM p", "o = (i = 1)", "o IN (true)", "o IN (true, false)",
        "o NOT IN (true, NULL)", "(o AND i = 1) IS UNKNOWN",
        "CASE WHEN o THEN i = 1 ELSE p END", "CASE i WHEN 1 THEN 'a' WHEN 2 THEN 'b' END = 'a'",
        "coalesce(i, 1) = 1", "coalesce(o, p, false)", "nullif(i, 1) = 0", "o OR NULL", "NOT (p AND NULL)",
        "CASE WHEN i > 0 THEN 1 ELSE 0 END < 1", "coalesce(i, 0) BETWEEN 0 AND 1",
    ]),
    Group("j jsonb, a integer[], q inet", [
        "(NULL, NULL, NULL)", "('{\"r\": \"eu\"}', '{1,2}', '10.0.0.1')", "('{\"r\": null}', '{}', '10.0.0.0/8')",
        "('[]', '{NULL}', '::1')", "('{\"r\": \"us\"}', '{2}', '10.0.0.2')"], [
        "1 = ANY (a)", "2 <> ANY (a)", "j IS NULL", "j ->> 'r' = 'eu'", "(j ->> 'r') IS NULL",
        "j @> '{\"r\": \"eu\"}'", "j ? 'r'", "a IS NOT NULL",
        "q = '10.0.0.1'", "q <> '10.0.0.0/8'", "a @> ARRAY[2]",
    ]),
]

# When expressions are NULL: each kind of node, over 10,000 rows in which each column is often NULL.
NULLS = Group("a integer, b integer, c smallint, t text, u text, l integer[], o boolean, p boolean", [], [
    # Strict operators and functions.
    "a = b", "a < b", "a + 1 > b", "a - b >= 0", "a * 2 = 2", "a % 3 = 1", "-a = 2", "abs(a) > 1", "~a < 0", "a & 1 = 0",
    "a = NULL", "t = u", "t < 'b'", "t || u = 'ab'", "length(t) > length(u)", "lower(t) = 'a'", "left(t, a) = ''",
    "t LIKE 'a%'", "o = p", "o::integer = 1", "a::bigint > b",
    # ANY and ALL, over lists with and without NULL, and over array columns.
    "a = ANY (ARRAY[1, 2, NULL])", "a <> ALL (ARRAY[1, NULL])", "a IN (1, 2)", "a NOT IN (1, NULL)",
    "a = ANY ('{}'::integer[])", "a <> ALL ('{}'::integer[])", "NOT (a = ANY ('{}'::integer[]))",
    "a = ANY (ARRAY[b, 1])", "a < ALL (ARRAY[b, c::integer])", "a > ANY (ARRAY[b, NULL])", "a = ANY (NULL::integer[])",
    "1 = ANY (l)", "a = ANY (l)", "a <> ALL (l)", "NOT (a = ANY (l))", "(a = ANY (l)) IS NULL",
    "t LIKE ANY (ARRAY['a%', NULL])", "t LIKE ALL (ARRAY['a%', '%b'])", "o = ANY (ARRAY[true, NULL])",
    # Row comparisons.
    "(a, b) < (1, 2)", "(a, b) >= (b, a)", "(a, b, c) <= (1, 1, 1)", "(a, b) > (0, c)", "(a, b) = (1, 2)",
    "(a, t) <> (1, 'a')", "(1, a) < (1, b)", "(a, t) < (1, 'b')",
    # CASE, coalesce, nullif, greatest and least.
    "CASE WHEN a > 0 THEN o WHEN b > 0 THEN p END", "CASE WHEN o THEN a ELSE b END = 1",
    "CASE a WHEN 1 THEN b WHEN b THEN c END > 0", "CASE t WHEN 'a' THEN 1 WHEN NULL THEN 2 ELSE 3 END = 3",
    "coalesce(a, b, 0) = 1", "coalesce(o, p)", "coalesce(t, u) = 'a'", "coalesce(a, b) IS NULL", "coalesce(a, 0) % 3 = 1",
    "nullif(a, b) = 1", "nullif(a, 1) IS NULL", "nullif(t, 'a') < 'b'", "nullif(a, NULL) = 1",
    "greatest(a, b) > 1", "greatest(a, b, 0) = 0", "least(a, b) < 0", "least(a, b) <= c", "greatest(a, NULL) <> 1",
    "least(a, 2, b) = 2", "greatest(a, b) IS NULL", "greatest(a, b) = least(b, c::integer)", "least(t, u) = 'a'",
    # Boolean operators, and tests that are never NULL.
    "o AND p", "o OR p", "NOT o", "a BETWEEN 0 AND 1 AND o", "(o OR p) OR a = 1", "o AND (p AND a = 1)",
    "a NOT BETWEEN 0 AND 1 OR b = 1 OR c BETWEEN 0 AND 1", "((o AND p) AND a = 1) AND b = 1", "o OR p AND a = 1", "o OR (a = 1)", "(o AND p) IS UNKNOWN", "o IS NOT TRUE", "(a = b) IS FALSE",
    "a IS DISTINCT FROM b", "a IS NOT DISTINCT FROM b", "t IS DISTINCT FROM 'a'", "a IS NULL", "l IS NOT NULL",
    "(o IS NULL) = (p IS NULL)",
], """
    SELECT nullif(floor(random() * 7)::integer - 3, -3), nullif(floor(random() * 7)::integer - 3, 3),
        nullif(floor(random() * 4)::smallint, 3), (ARRAY['a', 'b', 'ab', '', 'A', NULL])[ceil(random() * 6)],
        (ARRAY['a', 'b', '', NULL])[ceil(random() * 4)],
        (ARRAY['{}', '{1}', '{NULL}', '{1,NULL}', '{2,-1}', NULL])[ceil(random() * 6)]::integer[],
        (ARRAY[true, false, NULL])[ceil(random() * 3)], (ARRAY[true, false, NULL])[ceil(random() * 3)]
    FROM setseed(0.4), generate_series(1, 10000)
""")
# Arithmetic of one column, step by step, on numbers for which none of it fails; and bits of any mask.
NUMBERS = Group("i integer, b bigint, s smallint", [
    *values(["NULL", "0", "1", "-1", "7", "-7", "1000", "-1000", "4095", "4096", "-4096", "16777216", "-16777217",
             "1073741823", "-1073741824", "715827882", "-715827882"],
            ["NULL", "0", "-1", "4194304", "-4194305", "1099511627776", "-1099511627777", "4611686018427387903",
             "-4611686018427387904"], ["NULL", "0", "1", "-1", "16383", "-16384"])], [
    "i + 1 > 5", "s * 2 = 14", "s * -2 < 14", "abs(i) = 7", "-i >= 7", "i / 1000 = 0", "i / -7 = 1", "(i / 1000) % 4 = -1",
    "i >> 22 = 3", "i >> 3 < -1", "(i >> 22) & 3 = 2", "(b >> 22) & 1023 = 1023", "mod(abs(i), 4) = 3", "abs(i) % 4 = 0",
    "(i + 3) % 8 = 1", "(i - 5) % 7 = -2", "(s * 3) % 7 = 2", "(s * 6) % 4 = -2", "(7 - i) % 4 = 3", "i % 5000 = 4096",
    "(i + 1) % 5000 = 1", "(i >> 2) % 5000 = -1", "(i / 3) % 5000 = -333", "abs(i) % 5000 > 4095", "-i % 10000 < 0",
    "(i % 6000) % 4 = 3", "(i % 6000 + 6000) % 6000 < 1001", "i % 4 + i % 3 = 0", "(i & 3) * (i % 5) = 2",
    "(i & 16777216) = 0", "(i & 1073741824) <> 0", "(i & 5) = 4", "(i & 17895697) > 3", "(i & -8) = 8",
    "(b & 1099511627776) = 0", "(b & 1099511627775) < 8", "(b & 4611686018427387904) > 0", "(i & 65535) = 4096",
    "i & 16777217 BETWEEN 1 AND 16777216", "(i & 2147483648) = 0", "(b & 4294967296) = (i & 1)",
    "i # 1 = 0", "i | 1 = 1", "(i & 7) | 8 = 9", "s + 1 = 2", "i + s > 5",
    "i::bigint * 2 > 3000000000", "i * 1.5 > 10.5", "i + 1 > b", "(i & 3) = s", "~i & 1 = 0", "~(i & 7) < -3",
    "i % 3 = i % 5", "(i / 2) * 2 = i", "abs(i % 7) - 3 = abs(b % 7)",
])
GROUPS += [NULLS, NUMBERS]
