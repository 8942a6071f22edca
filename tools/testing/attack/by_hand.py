"""Designs that are written by hand, since random ones are unlikely to reach these cases.

The right answers are not given here: they come from the slots.
"""

from collections.abc import Iterator

from judged.lists import parts_of

from .by_hand_edges import EDGES
from .designs import NUMBER, SUBSCRIBERS, Design, Publication
from .written import Written

TEXT_PAIR = ("'a', 'b'", "'a', 'a'", "'', ''")
PLAIN = [
    # Functions with the same name over other types.
    Written("a int4range", ["upper(a) IS NOT NULL", "a IS NULL"], ["'[1,2)'", "'empty'", "'[1,)'", "NULL"]),
    Written("a int4range NOT NULL", ["lower(a) < 5", "lower(a) >= 5"], ["'[1,2)'", "'empty'", "'(,1)'"]),
    Written("a path NOT NULL", ["length(a) <= 5", "length(a) >= 6"], ["'[(0,0),(5.5,0)]'", "'[(0,0),(1,0)]'"]),
    Written("a lseg NOT NULL", ["length(a) <= 5", "length(a) >= 6"], ["'[(0,0),(5.5,0)]'", "'[(0,0),(1,0)]'"]),
    Written("a int4multirange NOT NULL", ["upper(a) >= 5", "upper(a) < 5"], ["'{}'", "'{[1,2)}'", "'{(,)}'"]),
    Written("a date NOT NULL", ["date_part('year', a) < 2000", "date_part('year', a) >= 2000",
        "date_part('year', a) IS NULL"],
        ["'2000-01-01'", "'5874897-12-31'", "'infinity'"]),
    Written("a circle NOT NULL", ["a @> circle '<(0,0),1>'", "NOT a @> circle '<(0,0),1>'"],
        ["'<(1e308,0),1e308>'", "'<(-1e308,0),1>'"]),
    Written("a circle NOT NULL, b circle NOT NULL", ["a && b", "NOT a && b"],
        ["'<(1e308,0),1>', '<(-1e308,0),1>'", "'<(0,0),1>', '<(0,0),1>'"]),
    Written("a point NOT NULL", ["a <@ circle '<(0,0),1>'", "NOT a <@ circle '<(0,0),1>'"],
        ["'(1e308,1e308)'", "'(NaN,0)'", "'(-1e308,1e308)'"]),
    Written("a polygon NOT NULL", ["a @> point '(0,0)'", "NOT a @> point '(0,0)'"],
        ["'((1e308,0),(-1e308,0),(0,1e308))'", "'((0,0))'"]),
    Written("a tsquery NOT NULL", ["(a && 'b'::tsquery) = 'b'::tsquery", "(a && 'b'::tsquery) <> 'b'::tsquery"],
        ["'a'", "''", "'b'"]),
    # Lists in columns.
    Written("a integer, b integer[]", ["(a = ANY (b)) IS NULL", "(a = ANY (b)) IS NOT NULL AND a IS NOT NULL"],
        ["NULL, '{}'", "1, '{NULL}'", "1, '{}'", "1, NULL"]),
    Written("a integer, b integer[] NOT NULL", ["a IS NULL", "a = ANY (b)", "NOT a = ANY (b)"],
        ["NULL, '{}'", "1, '{NULL}'", "1, '{}'"]),
    Written("a integer, b integer[] NOT NULL", ["a <> ALL (b)", "NOT a <> ALL (b)",
        "a IS NULL AND (a <> ALL (b)) IS NULL"],
        ["NULL, '{}'", "1, '{NULL,1}'", "1, '{}'", "1, '{NULL}'"]),
    # Patterns.
    Written("a text NOT NULL", ["a ~ '*@eu.example.com'", "a !~ '*@eu.example.com'"], ["'a'"]),
    Written("a text NOT NULL", ["a LIKE 'a\\'", "a NOT LIKE 'a\\'"], ["'a'", "E'a\\\\'"]),
    Written("a text NOT NULL", ["a LIKE 'a!' ESCAPE '!'", "a NOT LIKE 'a!' ESCAPE '!'"], ["'a'", "'a!'"]),
    Written("a text NOT NULL", ["a ~ ANY ('{a,(}')", "NOT (a ~ ANY ('{a,(}'))"], ["'a'", "'b'"]),
    Written("a text NOT NULL", ["a LIKE ANY ('{a\\\\\\\\}')", "NOT (a LIKE ANY ('{a\\\\\\\\}'))"],
        ["'a'", "'ab'", "E'a\\\\'"]),
    # Different collations for which a comparison cannot choose one.
    Written('a text COLLATE "C" NOT NULL, b text COLLATE "POSIX" NOT NULL', ["a = b", "a <> b"], TEXT_PAIR),
    Written('a text COLLATE "C" NOT NULL, b text COLLATE "POSIX" NOT NULL', ["a < b", "a >= b"], TEXT_PAIR),
    Written('a text COLLATE "C" NOT NULL, b text COLLATE "POSIX" NOT NULL',
        ["lower(a || b) = 'ab'", "lower(a || b) <> 'ab'"], TEXT_PAIR),
    Written('a text COLLATE "C" NOT NULL, b text COLLATE "en-x-icu" NOT NULL', ["a || b = 'ab'", "a || b <> 'ab'"],
        TEXT_PAIR),
    Written('a text COLLATE "C" NOT NULL, b text COLLATE "POSIX" NOT NULL', ["strpos(a, b) = 0", "strpos(a, b) <> 0"],
        TEXT_PAIR),
    Written('a text COLLATE "C" NOT NULL, b text COLLATE "POSIX" NOT NULL',
        ["hashtext(a || b) % 2 = 0", "hashtext(a || b) % 2 <> 0"], TEXT_PAIR),
    Written('a text COLLATE "C" NOT NULL, b text COLLATE "POSIX" NOT NULL',
        ["a || b ILIKE 'a%'", "a || b NOT ILIKE 'a%'"], TEXT_PAIR),
    Written('a text COLLATE "C", b text COLLATE "POSIX"', ["coalesce(a, b) = 'a'", "coalesce(a, b) <> 'a'",
        "coalesce(a, b) IS NULL"], TEXT_PAIR),
    Written('a text COLLATE "C", b text COLLATE "POSIX"', ["nullif(a, b) IS NULL", "nullif(a, b) IS NOT NULL"],
        TEXT_PAIR),
    Written('a text COLLATE "C", b text COLLATE "POSIX"', ["a IS DISTINCT FROM b", "a IS NOT DISTINCT FROM b"],
        TEXT_PAIR),
    Written('a text COLLATE "en-x-icu" NOT NULL, b text COLLATE "en-x-icu" NOT NULL', ['a COLLATE "C" < b', "a >= b"],
        ["'B', 'a'", "'a', 'B'", "'a', 'a'"]),
    Written('a text NOT NULL, b text COLLATE "en-x-icu" NOT NULL, c boolean NOT NULL', [
        "CASE WHEN c THEN a ELSE b END < 'm'", "c AND a >= 'm' OR NOT c AND b >= 'm'"],
        ["'Z', 'a', true", "'a', 'Z', false"]),
    Written('a text, b text COLLATE "en-x-icu"', ["coalesce(a, b) < 'm'", "a >= 'm' OR a IS NULL AND b >= 'm'",
        "coalesce(a, b) IS NULL"],
        ["'Z', 'a'", "NULL, 'Z'", "NULL, NULL"]),
    Written('a text NOT NULL, b text COLLATE "en-x-icu" NOT NULL', ["greatest(a, b) < 'm'", "a >= 'm' OR b >= 'm'"],
        ["'Z', 'a'", "'a', 'Z'"]),
    Written("a text NOT NULL", ["a COLLATE \"en-x-icu\" < 'b'", "a >= 'b'"], ["'B'", "'a'", "'c'"]),
    Written('a text COLLATE "en-x-icu" NOT NULL', ["a < 'b'", "a COLLATE \"C\" >= 'b'"], ["'B'", "'a'", "'c'"]),
    Written("a text NOT NULL", ["ascii(a) < 128", "ascii(a) >= 128"], ["'a'", "'あ'", "'é'", "''"]),
    # Casts and functions defined in the database, in constraints.
    Written("a integer, CHECK (a::text IS NOT NULL)", ["a < 5", "a >= 5"], ["NULL", "1", "5"], before=(
        "CREATE FUNCTION public.to_word(integer) RETURNS text LANGUAGE sql IMMUTABLE AS $$ SELECT 'x' $$",
        "CREATE CAST (integer AS text) WITH FUNCTION public.to_word(integer) AS ASSIGNMENT"),
        after=("DROP CAST (integer AS text)",) * 0),
    # A subquery that finds no row gives NULL to a domain that is NOT NULL, as described in the notes of CREATE DOMAIN.
    Written("a integer NOT NULL, b public.filled, CHECK (b IS NULL OR a >= 0)", ["a >= 0"],
        ["1, 1", "-1, (SELECT b FROM {table} WHERE false)"], before=("CREATE DOMAIN public.filled AS integer NOT NULL",
        )),
    Written("a integer, b public.small, CHECK (a = b)", ["a < 10", "a IS NULL"],
        ["1, 1", "NULL, NULL", "NULL, 1", "5, NULL"],
        before=("CREATE DOMAIN public.small AS integer CHECK (VALUE < 10)",)),
    Written("a text, CHECK (shadows.lower(a) IS NOT NULL)", ["a < 'm'", "a >= 'm'"], ["NULL", "'a'"]),
    Written("a integer NOT NULL, CHECK (a OPERATOR(shadows.<) 5)", ["a >= 5"], ["1", "9", "5"]),
    # Partitions whose key has another collation than the column: the bounds are printed without it.
    Written("a text", ["a = 'a'"], ["'a'", "'A'"],
        making="CREATE TABLE {table} ({columns}, row_number bigint) PARTITION BY LIST (a COLLATE caseless)",
        after=("CREATE TABLE {schema}.one PARTITION OF {table} FOR VALUES IN ('a')",
        "ALTER TABLE {schema}.one REPLICA IDENTITY FULL"),
        published="{schema}.one"),
    Written("a text", ["a >= 'a'"], ["'a'", "'A'", "'az'"],
        making="CREATE TABLE {table} ({columns}, row_number bigint) PARTITION BY RANGE (a COLLATE \"en-x-icu\")",
        after=("CREATE TABLE {schema}.one PARTITION OF {table} FOR VALUES FROM ('a') TO ('b')",
        "ALTER TABLE {schema}.one REPLICA IDENTITY FULL"),
        published="{schema}.one"),
    Written("a text COLLATE caseless, b text, CHECK (a = 'a')", ["b IS NULL", "b IS NOT NULL"],
        ["'A', 'b'", "'a', NULL"]),
    Written("a text, b text COLLATE caseless, CHECK (a = b), CHECK (b = 'x')", ["a = 'x'"], ["'X', 'X'", "'x', 'x'"]),
    # Column lists and identities.
    Written("a integer NOT NULL", [], ["1", "-1"], others=(
        ("FOR TABLE {table} (row_number, a) WHERE (a < 0)", 0), ("FOR TABLE {table} WHERE (a >= 0)", 1))),
    Written("a integer NOT NULL", [], ["1", "-1"], others=(
        ("FOR TABLE {table} (row_number, a) WHERE (a < 0)", 0), ("FOR TABLE {table} (row_number) WHERE (a >= 0)", 0)),
        after=(
        "ALTER TABLE {table} REPLICA IDENTITY DEFAULT",)),
    Written("a integer NOT NULL, b integer", [], ["1, 1", "-1, 2"], others=(
        ("FOR TABLE {table} WHERE (row_number % 2 = 0)", 0), ("FOR TABLE {table} WHERE (row_number % 2 <> 0)", 1),
        ("FOR TABLE {table} WHERE (b = 0)", None)), after=("ALTER TABLE {table} REPLICA IDENTITY DEFAULT",)),
    Written("a integer NOT NULL, b integer", [], ["1, 1", "-1, 2"], others=(
        ("FOR TABLE {table} WHERE (row_number % 2 = 0)", 0), ("FOR TABLE {table} WHERE (row_number % 2 <> 0)", 1),
        ("FOR TABLE {table} (a)", None)), after=("ALTER TABLE {table} REPLICA IDENTITY DEFAULT",)),
    Written("a integer NOT NULL", ["a < 0", "a >= 0"], ["1", "-1"],
        others=(("FOR TABLE {table} WITH (publish = 'insert')", 0),)),
    Written("a integer NOT NULL", ["a < 0", "a >= 0"], ["1", "-1"], others=(("FOR TABLES IN SCHEMA {schema}", 0),)),
    Written("a integer NOT NULL", [], ["1", "-1"], others=(
        ("FOR TABLE {table} WHERE (a < 0) WITH (publish = 'insert')", 0), ("FOR TABLE {table} WHERE (a >= 0)", 1),
        ("FOR TABLE {table} WHERE (a < 5) WITH (publish = 'update, delete, truncate')", 0))),
    # Extreme values.
    Written("a double precision NOT NULL", ["a < 0", "a = 0", "a > 0"], ["'-0'", "'NaN'", "'-Infinity'", "'5e-324'"]),
    Written("a double precision NOT NULL", ["a <= 'Infinity'", "a > 'Infinity'"], ["'NaN'", "'Infinity'"]),
    # A constant that is computed, in a database that prints floats with few digits.
    Written("a double precision NOT NULL", ["a < sqrt(2.0::float8)", "a >= 1.4142"], ["1.4142", "1.41421", "0"],
        before=(
        "DO $$ BEGIN EXECUTE format('ALTER DATABASE %I SET extra_float_digits = -10', current_database()); END $$",)),
    Written("a real NOT NULL", ["a < 0.1::real", "a >= 0.1"], ["0.1", "0.2", "0.05"]),
    Written("a real NOT NULL", ["a < 16777217", "a >= 16777217"], ["16777216", "16777218"]),
    Written("a bigint NOT NULL", ["a::float8 < 9007199254740993", "a >= 9007199254740993"],
        ["9007199254740993", "9007199254740992", "9007199254740994"]),
    Written("a time NOT NULL", ["a < '24:00'", "a >= '24:00'"], ["'24:00'", "'23:59:59.999999'"]),
    Written("a char(3) NOT NULL", ["a = 'a'", "a <> 'a'"], ["'a'", "'a  '", "''"]),
    Written("a char(3) NOT NULL", ["a LIKE 'a'", "a NOT LIKE 'a'"], ["'a'", "'abc'"]),
    Written("a char(3) NOT NULL", ["a::text = 'a '", "a::text <> 'a '"], ["'a'", "'a '"]),
    Written("a char(3) NOT NULL", ["a::text < 'a '", "a::text >= 'a '"], ["'a'", "E'a\\t'", "'b'"]),
    Written('a char(3) COLLATE "en-x-icu" NOT NULL', ["a < 'a '", "a >= 'a '"], ["'a'", "E'a\\t'", "'A'", "'b'"]),
    Written('a "char" NOT NULL', ["a = 'a'", "a <> 'a'"], ["'a'", "''", "E'\\\\351'"]),
    Written("a numeric NOT NULL", ["a < 1e131000", "a >= 1e131000"], ["'1e131001'", "'NaN'", "'Infinity'", "0"]),
    Written("a numeric(2,-1) NOT NULL", ["a <= 985", "a > 985"], ["990", "980", "984", "'NaN'"]),
    Written("a numeric(3,5) NOT NULL", ["a <= 0.00999", "a > 0.00999"], ["0.00999", "0", "'NaN'"]),
    Written("a timestamp NOT NULL", ["a::date <= '294276-12-31'", "a::date > '294276-12-31'"],
        ["'infinity'", "'294276-12-31 23:59:59.999999'"]),
    # When rounded, it is beyond the last timestamp.
    Written("a timestamp(0)", ["a + interval '0' >= '2024-01-01'", "(a >= '2024-01-01') IS NOT TRUE"],
        ["'294276-12-31 23:59:59.6'", "'2024-01-01'", "NULL"]),
    Written("a date NOT NULL", ["a < timestamp 'infinity'", "a = timestamp 'infinity'"],
        ["'5874897-12-31'", "'infinity'"]),
    Written("a name NOT NULL", [f"a = '{'a' * 70}'", f"a <> '{'a' * 70}'"], [f"'{'a' * 70}'", "'a'"]),
    Written("a varchar(2) NOT NULL", ["a = 'abc'", "a <> 'abc'"], ["'ab'", "'ab '"]),
    Written("a text NOT NULL", ["a = 'a'::char(3)", "a <> 'a'::char(3)"], ["'a'", "'a  '"]),
    Written("a text NOT NULL", ["a = 'a  '", "a <> 'a'"], ["'a'", "'a  '", "'a '"]),
    Written("a bigint NOT NULL", ["a & 65536 = 0", "a & 65536 <> 0"], ["0", "65536", "-1"]),
    Written("a integer NOT NULL", ["abs(a) % 4 < 2", "abs(a) % 4 >= 2"], ["'-2147483648'", "1", "-3"]),
    Written("a integer NOT NULL CHECK (a > -100)", ["abs(a) % 4 < 2", "abs(a) % 4 >= 2"], ["-99", "1", "2"]),
    Written("a integer NOT NULL", ["10 / a > 1", "10 / a <= 1"], ["0", "1", "100"]),
    Written("a integer NOT NULL", ["a <> 0 AND 10 / a > 1", "a = 0 OR 10 / a <= 1"], ["0", "1", "100"]),
    Written("a integer NOT NULL", [], ["0", "1", "100"], others=(
        ("FOR TABLE {table} WHERE (a = 0)", 0), ("FOR TABLE {table} WHERE (10 / a > 1)", 0),
        ("FOR TABLE {table} WHERE (a <> 0 AND 10 / a <= 1)", 1))),
    Written("a integer NOT NULL, b integer GENERATED ALWAYS AS (a % 2) STORED", ["b = 0", "b = 1", "b = -1"],
        ["1, DEFAULT", "-1, DEFAULT", "2, DEFAULT"]),
    # Generated columns are read as their expressions; one is rounded to its type, and one drops trailing blanks.
    Written("a numeric NOT NULL, b integer GENERATED ALWAYS AS (a * 1.5) STORED", ["b < 5", "a * 1.5 >= 5"],
        ["3, DEFAULT", "3.2, DEFAULT", "3.4, DEFAULT", "0, DEFAULT"]),
    Written("a text NOT NULL, b varchar(2) GENERATED ALWAYS AS (a) STORED", ["b = 'ab'", "a <> 'ab'"],
        ["'ab', DEFAULT", "'ab ', DEFAULT", "'a', DEFAULT"]),
    Written("a text, b text GENERATED ALWAYS AS (left(a, 2)) STORED", ["b = 'ab'", "a NOT LIKE 'ab%'", "b IS NULL"],
        ["'ab', DEFAULT", "'abc', DEFAULT", "'a', DEFAULT", "NULL, DEFAULT"]),
    Written("a integer, b integer, c bigint NOT NULL GENERATED ALWAYS AS (a::bigint + b) STORED", ["c < 5", "a::bigint + b >= 5"],
        ["1, 2, DEFAULT", "5, 0, DEFAULT", "NULL, 1, DEFAULT"]),
    Written("a date, b boolean GENERATED ALWAYS AS (extract(year FROM a) < 2024) STORED", ["b", "a >= '2024-01-01'", "b IS NULL"],
        ["'2023-12-31', DEFAULT", "'infinity', DEFAULT", "'-infinity', DEFAULT", "NULL, DEFAULT"]),
    Written("a {schema}.size, b boolean GENERATED ALWAYS AS (a < 'large') STORED", ["b", "NOT b", "b IS NULL"],
        ["'small', DEFAULT", "'middle', DEFAULT", "'large', DEFAULT", "NULL, DEFAULT"],
        before=("CREATE TYPE {schema}.size AS ENUM ('small', 'middle', 'large')",)),
    # What one side of a comparison implies about the other.
    Written("a integer NOT NULL, b integer NOT NULL, CHECK (a < b)", ["b <= 10", "a >= 10 OR b > 10"],
        ["9, 10", "10, 11", "9, 11", "-5, 5"]),
    Written("a date NOT NULL, b date NOT NULL, CHECK (a <= b)", ["b < '2024-01-01'", "a >= '2024-01-01'"],
        ["'2023-12-31', '2023-12-31'", "'2023-12-31', '2024-01-01'", "'infinity', 'infinity'"]),
    Written("a text NOT NULL", ["lower(a) = 'de' AND a <> 'DE'", "lower(a) <> 'de' OR a = 'DE'"], ["'DE'", "'de'", "'De'", "'fr'"]),
    Written("a integer NOT NULL", ["a = 0", "a <> 0 AND a IS NOT NULL"], ["1", "0"], after=(
        "CREATE FUNCTION {schema}.change() RETURNS trigger LANGUAGE plpgsql AS $$ BEGIN NEW.a := 7; RETURN NEW; END $$",
        "CREATE TRIGGER change BEFORE INSERT ON {table} FOR EACH ROW EXECUTE FUNCTION {schema}.change()")),
    Written("a integer NOT NULL", ["a < 0", "a >= 0"], ["1", "-1"],
        after=("ALTER TABLE {table} ENABLE ROW LEVEL SECURITY", "ALTER TABLE {table} FORCE ROW LEVEL SECURITY")),
    Written("a integer", ["a < 0", "a >= 0"], ["1", "-1", "NULL"],
        after=("ALTER TABLE {table} ADD CONSTRAINT told CHECK (a IS NOT NULL) NOT VALID",)),
    Written("a integer", ["a < 0", "a >= 0"], ["1", "-1", "NULL"], after=(
        "ALTER TABLE {table} ADD CONSTRAINT told CHECK (a IS NOT NULL) NOT VALID",
        "ALTER TABLE {table} VALIDATE CONSTRAINT told")),
    Written("a timestamptz, CHECK (a < timestamptz '2024-01-01 00:00')", ["a < '2023-12-31 18:30:00+00'"],
        ["'2023-12-31 20:00+00'", "'2023-12-31 18:00+00'"]),
    Written("a date NOT NULL, CHECK (a < timestamptz '2024-01-01 00:00+00')", ["a < '2024-01-01'"],
        ["'2024-01-01'", "'2023-12-31'"]),
    # Partitions whose rows are not in the WAL.
    Written("a integer", ["a < 0", "a >= 0 OR a IS NULL"], ["1", "-1", "NULL"],
        making="CREATE TABLE {table} ({columns}, row_number bigint) PARTITION BY LIST (a)",
        after=("CREATE UNLOGGED TABLE {schema}.one PARTITION OF {table} FOR VALUES IN (1)",
        "CREATE TABLE {schema}.rest PARTITION OF {table} DEFAULT",
        "ALTER TABLE {schema}.rest REPLICA IDENTITY FULL"), options="publish_via_partition_root = true"),
    Written("a integer", ["a < 0", "a >= 0 OR a IS NULL"], ["1", "-1", "NULL"],
        making="CREATE TABLE {table} ({columns}, row_number bigint) PARTITION BY LIST (a)",
        after=("CREATE TABLE {schema}.remote ({columns}, row_number bigint)",
        "CREATE FOREIGN TABLE {schema}.one PARTITION OF {table} FOR VALUES IN (1) SERVER attack_loop "
        "OPTIONS (schema_name '{schema}', table_name 'remote')",
        "CREATE TABLE {schema}.rest PARTITION OF {table} DEFAULT",
        "ALTER TABLE {schema}.rest REPLICA IDENTITY FULL"),
        options="publish_via_partition_root = true"),
    Written("a integer", ["a < 0", "a >= 0", "a IS NULL"], ["1", "-1", "NULL"],
        making="CREATE TABLE {table} ({columns}, row_number bigint) PARTITION BY LIST (a)",
        after=("CREATE TABLE {schema}.rest PARTITION OF {table} DEFAULT",
        "ALTER TABLE {schema}.rest REPLICA IDENTITY FULL"),
        options="publish_via_partition_root = true", others=(("FOR TABLE {schema}.rest WHERE (a = 5)", 0),)),
    Written("a smallint", ["CASE WHEN a <> 0 THEN 255 / a ELSE 0 END < 0", "NOT CASE WHEN a <> 0 THEN 255 / a ELSE 0 END < 0",
        "CASE WHEN a <> 0 THEN 255 / a ELSE 0 END IS NULL"], ["0", "1", "-1", "NULL"]),
    Written("a integer, b lseg NOT NULL, c polygon NOT NULL", ["a < 0", "a >= 0"],
        ["1, '[(0,0),(1,1)]', '((0,0))'", "NULL, '[(0,0),(1,1)]', '((0,0))'"]),
]

# In a multibyte encoding other than UTF8, ascii() accepts only ASCII characters.
JAPANESE = [
    Written("a text NOT NULL", ["ascii(a) < 128", "ascii(a) >= 128"], ["'a'", "'あ'", "''"]),
    Written("a text NOT NULL", ["length(a) < 2", "length(a) >= 2"], ["'a'", "'あ'", "'あい'"]),
    Written("a text NOT NULL", ["a < 'あ'", "a >= 'あ'"], ["'a'", "'あ'", "'あい'"]),
]
# In SQL_ASCII the server knows only bytes, and no letters other than those of ASCII.
ASCII = [
    Written("a text NOT NULL", ["a < 'é'", "a >= 'é'"], ["'z'", "'é'", "'ü'", "''"]),
    Written("a text NOT NULL", ["a = 'é'", "a > 'é'", "a < 'é'"], ["'z'", "'é'", "'ü'", "''"]),
    Written("a jsonb NOT NULL", ["a ->> 'é' = 'ü'", "(a ->> 'é' = 'ü') IS NOT TRUE"], ["'{\"é\": \"ü\"}'", "'{}'"]),
]
# The number of designs in a database.
PIECE = 15
WRITTEN = {f"by hand from {at}": PLAIN[at:at + PIECE] for at in range(0, len(PLAIN), PIECE)}
WRITTEN |= {f"edges from {at}": EDGES[at:at + PIECE] for at in range(0, len(EDGES), PIECE)}
WRITTEN |= {"in EUC_JP": JAPANESE, "in SQL_ASCII": ASCII}
# The options of CREATE DATABASE for each.
PLACES = dict.fromkeys(WRITTEN, "") | {
    f"in {it}": f"ENCODING '{it}' LC_COLLATE 'C' LC_CTYPE 'C'" for it in ("EUC_JP", "SQL_ASCII")}


def by_hand(kind: str) -> Iterator[Design]:
    """Yields all designs of a database, each in a schema of its own."""
    for number, it in enumerate(WRITTEN[kind]):
        yield design_of(f"h{number}", it)


def design_of(name: str, written: Written) -> Design:
    """Returns a design that is written by hand."""
    table = f"{name}.rows"

    def said(text: str) -> str:
        return text.replace("{columns}", written.columns).replace("{table}", table).replace("{schema}", name)

    design = Design(name, [], [])
    design.setup = [*map(said, written.before), said(written.making), f"ALTER TABLE {table} REPLICA IDENTITY FULL",
        *map(said, written.after)]
    options = f" WITH ({written.options})" if written.options else ""
    ends = [(f"FOR TABLE {said(written.published)} WHERE ({it}){options}", place % SUBSCRIBERS, it) for place,
        it in enumerate(written.filters)]
    ends += [(said(end), taker, None) for end, taker in written.others]  # type: ignore[misc]
    design.publications = [
        Publication(f"{name}_p{place}", f"CREATE PUBLICATION {name}_p{place} {end}", taker, filter)
        for place, (end, taker, filter) in enumerate(ends)]
    names = ", ".join(it.split()[0] for it in columns_of(written.columns))
    design.rows = [f"INSERT INTO {table} ({NUMBER}, {names}) VALUES ({{number}}, {said(row)})" for row in written.rows]
    return design


def columns_of(text: str) -> list[str]:
    """Returns the columns of a list, without constraints."""
    return [it for it in parts_of(text) if not it.startswith("CHECK")]
