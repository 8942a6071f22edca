"""More designs that are written by hand: at the limits of types, of the texts that psql prints, and of partitions."""

from .written import Written

WHOLE = ["NULL", "'-2147483648'", "-65537", "-9", "-8", "-1", "0", "1", "5", "8", "33", "65536", "2147483647"]
LONG = ["NULL", "'-9223372036854775808'", "-4294967296", "-1", "0", "1", "4294967296", "9223372036854775807"]
# The last timestamps of all, which can only be obtained by rounding.
LAST = "'294276-12-31 23:59:59.999999'::timestamp(0)"
LAST_IN_UTC = "'294276-12-31 23:59:59.999999+00'::timestamptz(0)"
MOMENTS = ["NULL", "'-infinity'", "'4714-11-24 BC'", "'2023-12-31 23:59:59.5'", "'2024-01-01'", "'294276-12-31'",
           "'294276-12-31 23:59:59'", "'294276-12-31 23:59:59.999999'", LAST, "'infinity'"]
IN_UTC = ["NULL", "'-infinity'", "'2024-01-01 00:00+00'", "'294276-12-31 23:59:59.999999+00'", LAST_IN_UTC, "'infinity'"]
# Unicode defines some of these as noncharacters.
LETTERS = ["NULL", "''", "U&'\\FDD0'", "U&'\\FFFE'", "U&'a\\FFFF'", "U&'\\+10FFFF'", "U&'\\+10FFFFa'", "'a'", "'ab'", "'b'",
           "E'\\n'", "E'a\\nb'", "E'a\\x01'"]
LISTED = ["1, NULL", "1, 1", "1, 9", "2, NULL", "2, 9", "NULL, NULL", "NULL, 1"]
ROOT = "publish_via_partition_root = true"
BY_LIST = "CREATE TABLE {table} ({columns}, row_number bigint) PARTITION BY LIST (a)"
BY_RANGE = "CREATE TABLE {table} ({columns}, row_number bigint) PARTITION BY RANGE (a)"


def parts(*listed: tuple[str, str]) -> list[str]:
    """Returns partitions by name, each with what follows PARTITION OF."""
    return [statement for name, text in listed for statement in (
        f"CREATE TABLE {{schema}}.{name} PARTITION OF {{table}} {text}",
        f"ALTER TABLE {{schema}}.{name} REPLICA IDENTITY FULL")]


EDGES = [
    # Shifts by more than the width of the type, and masks of its full width.
    *(Written("a integer", [f"{it} < 4", f"{it} >= 4", "a IS NULL"], WHOLE)
      for it in ("(a >> 33)", "(a >> 31)", "(a << 33)", "(a >> -1)", "(~a & 3)", "(a & -8)", "(a # 5)", "(a | 7)")),
    *(Written("a bigint", [f"{it} < 4", f"{it} >= 4", "a IS NULL"], LONG)
      for it in ("(a >> 64)", "(a >> 70)", "(a & 4294967295)", "(a % -4)")),
    # The last timestamp.
    Written("a timestamp(0)", ["a <= '294276-12-31 23:59:59.999999'", "a = 'infinity'", "a IS NULL"], MOMENTS),
    Written("a timestamp", ["a < 'infinity'", "a = 'infinity'", "a IS NULL"], MOMENTS),
    Written("a timestamp", ["a < date '294277-01-01'", "a >= 'infinity'", "a IS NULL"], MOMENTS),
    Written("a timestamp", ["a::date < '294277-01-01'", "a::date >= '294277-01-01'", "a IS NULL"], MOMENTS),
    Written("a timestamp", ["date_trunc('month', a) < '2024-01-01'", "a >= '2024-01-01'", "a IS NULL"], MOMENTS),
    Written("a timestamp", ["a + interval '1 day -24:00' < '2024-01-01'", "a >= '2024-01-01'", "a IS NULL"], MOMENTS),
    Written("a timestamp", ["a - interval '1 day' < '294276-12-31'", "a >= '294277-01-01'::date", "a IS NULL"], MOMENTS),
    Written("a timestamp", ["extract(year FROM a) < 294277", "extract(year FROM a) >= 294277", "a IS NULL"], MOMENTS),
    Written("a timestamp", ["a <@ '[-infinity,infinity)'::tsrange", "a = 'infinity'", "a IS NULL"], MOMENTS),
    Written("a timestamptz", ["a <= '294276-12-31 23:59:59.999999+00'", "a = 'infinity'", "a IS NULL"], IN_UTC),
    Written("a timestamptz", ["a AT TIME ZONE 'UTC' < '2024-01-01'", "a >= '2024-01-01 00:00+00'", "a IS NULL"], IN_UTC),
    Written("a date, b timestamp, CHECK (a = b)", ["b >= '294277-01-01'::date", "a < '294277-01-01'", "a IS NULL OR b IS NULL"],
        [f"'294277-01-01', {LAST}", "'294276-12-31', '294276-12-31'", "'infinity', 'infinity'", f"NULL, {LAST}"]),
    Written("a timestamp, b timestamp(0) GENERATED ALWAYS AS (a) STORED",
        ["b <= '294276-12-31 23:59:59'", "b = 'infinity'", "b IS NULL"], [f"{it}, DEFAULT" for it in MOMENTS]),
    # What psql does not accept as a character, and lines.
    *(Written("a text", [its, other, "a IS NULL"], LETTERS) for its, other in (
        ("a LIKE U&'a\\FFFF%'", "a NOT LIKE 'a%'"), ("a LIKE U&'a\\+10FFFF%'", "a NOT LIKE U&'a\\+10FFFF%'"),
        ("a = U&'\\FDD0'", "a <> ''"), ("a <= U&'\\FFFE'", "a > U&'\\FFFE'"), ("left(a, 1) = U&'\\+10FFFF'", "a < U&'\\+10FFFF'"),
        ("a < E'\\n'", "a >= E'\\n'"), ("a = E'x\\n\\\\q\\n'", "a <> E'x\\n\\\\q\\n'"))),
    # Constants in lists, with their types.
    Written("a bit(4) NOT NULL", ["a IN (B'0001', B'1111')", "a = B'1111'", "a NOT IN (B'0001', B'1111')"],
        ["B'0001'", "B'1111'", "B'1000'"]),
    Written("a jsonb NOT NULL", ["a ->> 'k' <= '1'", "a ->> 'k' > '1'", "a ->> 'k' IS NULL"],
        ["'{}'", "'{\"k\": 1}'", "'{\"k\": \"x\"}'", "'[]'"]),
    Written("a char(3) NOT NULL", ["lower(a || 'é') < 'z'", "lower(a || 'a  ') >= 'a  '"], ["'   '", "'a'", "'z'", "'aé'"]),
    # A filter of a publication of updates, which cannot be prepared.
    Written("a polygon", ["a IS NOT NULL"], ["'((0,0))'", "NULL"], others=(
        ("FOR TABLE {table} WHERE (greatest(a, a) IS NULL) WITH (publish = 'update, delete')", 1),)),
    # Partitions with constraints of their own.
    Written("a integer, b integer", ["b < 5", "b >= 5"], LISTED, making=BY_LIST, options=ROOT,
        after=parts(("rest", "(b NOT NULL) DEFAULT"))),
    Written("a integer, b integer", ["b < 5", "b >= 5"], LISTED, making=BY_LIST, options=ROOT,
        after=parts(("one", "(CHECK (b > 0), b NOT NULL) FOR VALUES IN (1)"), ("rest", "(b NOT NULL) DEFAULT"))),
    Written("a integer, b integer", ["b < 5", "b >= 5"], LISTED, making=BY_LIST, options=ROOT,
        after=parts(("one", "(CHECK (b > 0)) FOR VALUES IN (1)"), ("rest", "(b NOT NULL) DEFAULT"))),
    Written("a text", ["a < 'm'", "a >= 'm'"], LETTERS, making=BY_RANGE, options=ROOT,
        after=parts(("low", "FOR VALUES FROM ('') TO ('m')"), ("high", "FOR VALUES FROM ('m') TO (U&'\\+10FFFF')"))),
    Written("a timestamp", ["a < '2024-01-01'", "a = 'infinity'", "a >= '2024-01-01' AND a < 'infinity'"], MOMENTS,
        making=BY_RANGE, options=ROOT,
        after=parts(("low", "FOR VALUES FROM (MINVALUE) TO ('infinity')"),
                    ("high", "FOR VALUES FROM ('infinity') TO (MAXVALUE)"))),
    # A list of all columns of a table that once had more.
    Written("a integer NOT NULL, gone integer", [], ["1, NULL", "2, NULL"], others=(
        ("FOR TABLE {table} (row_number, a, gone) WHERE (row_number % 2 = 0)", 0),
        ("FOR TABLE {table} WHERE (row_number % 2 <> 0)", 0)),
        after=("ALTER TABLE {table} REPLICA IDENTITY DEFAULT", "ALTER TABLE {table} ADD more integer",
               "ALTER TABLE {table} DROP more")),
    Written('"a ""b"" %s :x" integer', ['"a ""b"" %s :x" < 5', '"a ""b"" %s :x" >= 5'], []),
]
