"""What `show` prints of catalogs, and `check --show` of shardings."""

from collections.abc import Iterator

from .case import ACCEPTED, Case, Outline, two_parts
from .catalogs import C, halves
from .checks import HIGH, LOW

ALL = "insert, update, delete, truncate"

# A table, and how it is shown.
T = "CREATE TABLE t (id integer PRIMARY KEY, a boolean, b boolean, note text);\n"
T_SHOWN = """\
CREATE TABLE "public"."t" ("id" integer NOT NULL, "a" boolean, "b" boolean, "note" text, PRIMARY KEY ("id"));
ALTER TABLE "public"."t" REPLICA IDENTITY DEFAULT;
"""

# Filters on it, and how each is shown: with only the necessary parentheses.
FILTERS: list[tuple[str, str]] = [
    ("a", '"a" = TRUE'),
    ("NOT a", 'NOT "a" = TRUE'),
    ("(((id > 5)))", '"id" > 5'),
    ("5 < id", '"id" > 5'),
    ("id != - 5", '"id" <> -5'),
    ("((a AND b) AND a) AND b", '"a" = TRUE AND "b" = TRUE AND "a" = TRUE AND "b" = TRUE'),
    ("a AND (b AND a)", '"a" = TRUE AND ("b" = TRUE AND "a" = TRUE)'),
    ("a OR (b OR a)", '"a" = TRUE OR ("b" = TRUE OR "a" = TRUE)'),
    ("a OR (b AND a)", '"a" = TRUE OR "b" = TRUE AND "a" = TRUE'),
    ("(a OR b) AND a", '("a" = TRUE OR "b" = TRUE) AND "a" = TRUE'),
    ("NOT (a AND b)", 'NOT ("a" = TRUE AND "b" = TRUE)'),
    ("(NOT a) AND b", 'NOT "a" = TRUE AND "b" = TRUE'),
    ("NOT NOT a", 'NOT NOT "a" = TRUE'),
    ("NOT (a IS NULL)", '"a" IS NOT NULL'),
    ("note NOTNULL", '"note" IS NOT NULL'),
    ("NOT (NOT (note IS NULL))", 'NOT "note" IS NOT NULL'),
    ("(note IS NULL) IS TRUE", '("note" IS NULL) IS TRUE'),
    ("(a IS TRUE) IS NOT FALSE", '("a" = TRUE IS TRUE) IS NOT FALSE'),
    ("(NOT a) IS UNKNOWN", '(NOT "a" = TRUE) IS UNKNOWN'),
    ("(id > 5) IS UNKNOWN", '"id" > 5 IS UNKNOWN'),
    ("(a AND b) IS FALSE", '("a" = TRUE AND "b" = TRUE) IS FALSE'),
    ("NOT (id IN (3, 1, 2, 1))", '"id" NOT IN (1, 2, 3)'),
    ("id % 4 BETWEEN -1 AND 1 IS TRUE", '"id" % 4 BETWEEN -1 AND 1 IS TRUE'),
    ("NOT id BETWEEN 1 AND 2", '"id" NOT BETWEEN 1 AND 2'),
    ("note IS DISTINCT FROM 'a''b' OR FALSE", "\"note\" IS DISTINCT FROM 'a''b' OR FALSE"),
    ("(note IS NOT DISTINCT FROM 'x') IS TRUE", "(\"note\" IS NOT DISTINCT FROM 'x') IS TRUE"),
    ("NOT TRUE", "NOT TRUE"),
]

# Tables of two schemas, publications that carry them in each way, and subscriptions.
CATALOG = """\
CREATE SCHEMA s; CREATE SCHEMA empty;
CREATE TABLE s."a ""b" (x bigint, y smallint NOT NULL, PRIMARY KEY (y, x));
CREATE TABLE t (id int PRIMARY KEY, "Code" text NOT NULL);
CREATE UNIQUE INDEX t_code ON t ("Code");
CREATE TABLE s.c (x text PRIMARY KEY);
ALTER TABLE s."a ""b" REPLICA IDENTITY NOTHING;
ALTER TABLE t REPLICA IDENTITY USING INDEX t_code;
ALTER TABLE s.c REPLICA IDENTITY FULL;
CREATE PUBLICATION none;
CREATE PUBLICATION everything FOR ALL TABLES WITH (publish = 'delete,insert');
CREATE PUBLICATION named FOR TABLE s.c, t WHERE (id = 1), TABLE s.c;
CREATE PUBLICATION whole FOR TABLES IN SCHEMA s, empty WITH (publish = '');
CREATE PUBLICATION twice FOR TABLE s.c WHERE (x = 'é'), TABLE t, TABLES IN SCHEMA public, s;
CREATE SUBSCRIPTION "one" CONNECTION 'host=here' PUBLICATION whole, none;
"""
SHOWN = f"""\
CREATE SCHEMA "s";
CREATE TABLE "s"."a ""b" ("x" bigint NOT NULL, "y" smallint NOT NULL, PRIMARY KEY ("y", "x"));
ALTER TABLE "s"."a ""b" REPLICA IDENTITY NOTHING;
CREATE TABLE "public"."t" ("id" integer NOT NULL, "Code" text NOT NULL, PRIMARY KEY ("id"));
CREATE UNIQUE INDEX "t_code" ON "public"."t" ("Code");
ALTER TABLE "public"."t" REPLICA IDENTITY USING INDEX "t_code";
CREATE TABLE "s"."c" ("x" text NOT NULL, PRIMARY KEY ("x"));
ALTER TABLE "s"."c" REPLICA IDENTITY FULL;
CREATE PUBLICATION "none" WITH (publish = '{ALL}');
CREATE PUBLICATION "everything" FOR TABLE "s"."a ""b", TABLE "public"."t", TABLE "s"."c" WITH (publish = 'insert, delete');
CREATE PUBLICATION "named" FOR TABLE "s"."c", TABLE "public"."t" WHERE ("id" = 1) WITH (publish = '{ALL}');
CREATE PUBLICATION "whole" FOR TABLE "s"."a ""b", TABLE "s"."c" WITH (publish = '');
CREATE PUBLICATION "twice" FOR TABLE "s"."c" WHERE ("x" = 'é'), TABLE "public"."t", \
TABLES IN SCHEMA "s", TABLES IN SCHEMA "public" WITH (publish = '{ALL}');
CREATE SUBSCRIPTION "one" CONNECTION '' PUBLICATION "whole", "none";
"""

# Inputs of `show`, with the status and the output.
SHOWS: list[tuple[str, int, str]] = [
    ("", 0, ""),
    ("-- nothing\n;;", 0, ""),
    (CATALOG, 0, SHOWN),
    (SHOWN, 0, SHOWN),
    ("%%\n", 3, "input\n"),
    ("CREATE;", 3, "catalog 6 Expected\n"),
]

# NOTs in parentheses, nested as deeply as allowed, and once more.
NESTED = [("(NOT " * 31 + "a" + ")" * 31, 0), ("NOT " * 64 + "a", 0), ("(" * 64 + "a" + ")" * 64, 0)]
TOO_DEEP = "NOT " * 65 + "a"

HALVES = halves(LOW, HIGH)
HALVES_SHOWN = f"""\
CREATE TABLE "public"."t" ("id" integer NOT NULL, "region" text, PRIMARY KEY ("id"));
ALTER TABLE "public"."t" REPLICA IDENTITY FULL;
CREATE PUBLICATION "pa" FOR TABLE "public"."t" WHERE ("id" < 100) WITH (publish = '{ALL}');
CREATE PUBLICATION "pb" FOR TABLE "public"."t" WHERE ("id" >= 100) WITH (publish = '{ALL}');
CREATE SUBSCRIPTION "s0" CONNECTION '' PUBLICATION "pa";
CREATE SUBSCRIPTION "s1" CONNECTION '' PUBLICATION "pb";
"""

# Certificates of two halves, with the status and the output of `check --show`. A fault is printed alone.
CHECKS: list[tuple[str, int, str]] = [
    (C, 0, HALVES_SHOWN + ACCEPTED),
    ("o 0\n", 1, f"{HALVES_SHOWN}refused NotOwner public.t 0\n"),
    ("s 0 o\n", 3, "certificate 1 Ended\n"),
]


def filtered(condition: str) -> str:
    """Returns a catalog with this filter."""
    return f"{T}CREATE PUBLICATION p FOR TABLE t WHERE ({condition});\n"


def shown_filter(condition: str) -> str:
    """Returns the catalog as shown, if its filter is shown like this."""
    return f"{T_SHOWN}CREATE PUBLICATION \"p\" FOR TABLE \"public\".\"t\" WHERE ({condition}) WITH (publish = '{ALL}');\n"


def cases() -> Iterator[Case]:
    """Yields a run for each, and one more for what is shown of each filter."""
    for condition, shown in FILTERS:
        for text in (condition, shown):
            yield Case(f"show of {text}", ("show",), filtered(text), 0, shown_filter(shown))
    for number, (text, status, output) in enumerate(SHOWS, 1):
        yield Case(f"show, case {number}", ("show",), text, status, output)
    for condition, status in NESTED:
        yield Case(f"show of {condition}", ("show",), filtered(condition), status, Outline(lines=3))
    yield Case("show of 65 NOTs", ("show",), filtered(TOO_DEEP), 3, Outline(begin="catalog ", end=" TooDeep\n"))
    for certificates, status, output in CHECKS:
        name = f"check --show with {certificates!r}"
        yield Case(name, ("check", "--show"), two_parts(HALVES, certificates), status, output)
