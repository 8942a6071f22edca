"""Filters and catalogs with the whole language, and what eval prints for rows."""

from collections.abc import Iterator

from .case import Case, two_parts

TABLE = """\
CREATE TABLE t (id integer PRIMARY KEY, region text);
CREATE PUBLICATION p FOR TABLE t """

# Catalogs with a fault, and the line.
FAULTS: list[tuple[str, str]] = [
    (f"{TABLE}(id);", "catalog 87 ColumnList\n"),
    (f"{TABLE}WHERE (id % 0 = 1);", "catalog 99 ZeroDivisor\n"),
    (f"{TABLE}WHERE (id < 9223372036854775808);", "catalog 99 NumberTooLarge\n"),
    (f"{TABLE}WHERE (id %-2 = 0);", "catalog 97 LeftOut\n"),
    (f"{TABLE}WHERE ({'(' * 65}", "catalog 158 TooDeep\n"),
    (f"{TABLE}WHERE (id IN ());", "catalog 101 Expected\n"),
    (f"{TABLE}WHERE (id IN ({'7, ' * 100}7));", "catalog 401 TooMany\n"),
    (f"{TABLE}WHERE (id IN ({'7, ' * 100}));", "catalog 401 Expected\n"),
    (f"{TABLE}WHERE (region BETWEEN 'a' AND 'b');", "catalog 101 LeftOut\n"),
    (f"{TABLE}WHERE (id IS DISTINCT FROM NULL);", "catalog 114 LeftOut\n"),
    (f"CREATE TABLE {'a' * 64}", "catalog 13 NameTooLong\n"),
]

# A filter and rows, and the output.
VALUES: list[tuple[str, str, str]] = [
    (
        "NOT region = 'eu' OR id % 3 = -1", "(-7, NULL)\n(7, NULL)\n(7, 'us')\n(7, 'eu')\n",
        "p=true\np=null\np=true\np=false\n",
    ),
    ("region = 'eu' IS NOT TRUE", "(1, NULL)\n", "p=true\n"),
    ("5 > id AND (region) ISNULL", "(4, NULL)\n(5, NULL)\n(4, '')\n", "p=true\np=false\np=false\n"),
    ("id BETWEEN 1 AND 9", "(0, NULL)\n(1, NULL)\n(9, NULL)\n(10, NULL)\n", "p=false\np=true\np=true\np=false\n"),
    ("id NOT BETWEEN 1 AND 9", "(9, NULL)\n(10, NULL)\n", "p=false\np=true\n"),
    ("region IN ('us', 'eu', 'us')", "(1, 'eu')\n(1, 'ap')\n(1, NULL)\n", "p=true\np=false\np=null\n"),
    (
        "region NOT IN ('eu', 'us') OR region IS NULL", "(1, 'eu')\n(1, 'ap')\n(1, NULL)\n",
        "p=false\np=true\np=true\n",
    ),
    ("region NOT IN ('eu')", "(1, NULL)\n", "p=null\n"),
    ("region IS DISTINCT FROM 'eu'", "(1, 'eu')\n(1, 'us')\n(1, NULL)\n", "p=false\np=true\np=true\n"),
    ("region IS NOT DISTINCT FROM 'eu'", "(1, 'eu')\n(1, 'us')\n(1, NULL)\n", "p=true\np=false\np=false\n"),
]

# Publications of whole tables.
CARRIED = """\
CREATE SCHEMA s;
CREATE PUBLICATION every FOR ALL TABLES;
CREATE PUBLICATION later FOR TABLES IN SCHEMA s, CURRENT_SCHEMA;
CREATE PUBLICATION other FOR TABLES IN SCHEMA s;
CREATE TABLE public.t (id integer PRIMARY KEY, region text);
CREATE TABLE s.t (id bigint PRIMARY KEY);
CREATE PUBLICATION beside FOR TABLE ONLY t * WHERE (id < 0), TABLES IN SCHEMA public WITH (publish = 'insert, UPDATE');
CREATE PUBLICATION none;
CREATE SUBSCRIPTION s0 CONNECTION '' PUBLICATION every, none;"""

NOBODY = """\
CREATE TABLE t (id integer PRIMARY KEY);
CREATE PUBLICATION p;"""


def cases() -> Iterator[Case]:
    """Yields a run of eval for each."""
    for number, (catalog, expected) in enumerate(FAULTS, 1):
        yield evaluation(f"a fault of a filter, case {number}", catalog, "", 3, expected)
    for number, (condition, rows, expected) in enumerate(VALUES, 1):
        yield evaluation(f"values of a filter, case {number}", f"{TABLE}WHERE ({condition});", rows, 0, expected)
    yield evaluation("whole tables", CARRIED, "(1, 'eu')\n", 0, "every=all later=all beside=all\n")
    yield evaluation("a table that nobody carries", NOBODY, "(1)\n", 0, "\n")


def evaluation(name: str, catalog: str, rows: str, status: int, expected: str) -> Case:
    """Returns a run of eval on a catalog whose last line has no newline."""
    return Case(name, ("eval", "t"), two_parts(f"{catalog}\n", rows), status, expected)
