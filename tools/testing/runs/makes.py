"""Tables that have a certificate, and tables with a row that shows that there is none."""

from collections.abc import Iterator

from .case import Case, Made, Outline
from .catalogs import REGIONS, halves

# Conditions of two halves for which there is a certificate.
SOUND: list[tuple[str, str]] = [
    (" WHERE (id < 100)", " WHERE (id >= 100)"),
    (" WHERE (id % 2 = 0)", " WHERE (id % 2 = 1 OR id % 2 = -1)"),
    (" WHERE (id = 5)", " WHERE (id < 5 OR id > 5)"),
    (" WHERE (region = 'eu')", " WHERE (region = 'eu' IS NOT TRUE)"),
    ("", " WHERE (FALSE)"),
    (" WHERE (id BETWEEN 1 AND 9)", " WHERE (id < 1 OR id > 9)"),
    (" WHERE (id IN (1, 3, 5))", " WHERE (id NOT IN (5, 3, 1, 1))"),
    (" WHERE (id % 3 IN (0, 1, -1))", " WHERE (id % 3 IN (2, -2))"),
    (" WHERE (region IN ('us', 'eu'))", " WHERE (region NOT IN ('eu', 'us') OR region IS NULL)"),
    (" WHERE (region IS DISTINCT FROM 'eu')", " WHERE (region = 'eu')"),
]

# Conditions of two halves, and how the row that shows the fault begins and ends.
WRONG: list[tuple[str, str, str, str]] = [
    (" WHERE (region = 'eu')", " WHERE (region <> 'eu')", "counter public.t (", ", NULL) owners none\n"),
    (" WHERE (id % 2 = 0)", " WHERE (id % 2 = 1)", "counter public.t (-", " owners none\n"),
    (" WHERE (id < 100)", " WHERE (id > 100)", "counter public.t (100, ", " owners none\n"),
    (" WHERE (id BETWEEN 1 AND 9)", " WHERE (id NOT BETWEEN 1 AND 8)", "counter public.t (9, ", " owners s0,s1\n"),
    (" WHERE (id IN (1, 3, 5))", " WHERE (id NOT IN (1, 2, 3, 5))", "counter public.t (2, ", " owners none\n"),
    (
        " WHERE (region IN ('eu', 'us'))", " WHERE (region NOT IN ('eu', 'us'))",
        "counter public.t (", ", NULL) owners none\n",
    ),
    (
        " WHERE (region IS DISTINCT FROM 'eu')", " WHERE (region IS NOT DISTINCT FROM 'eu' OR region IS NULL)",
        "counter public.t (", ", NULL) owners s0,s1\n",
    ),
    (" WHERE (id <= 100)", " WHERE (id >= 100)", "counter public.t (100, ", " owners s0,s1\n"),
    ("", "", "counter public.t (", " owners s0,s1\n"),
]

# Two tables of different schemas. No subscriber takes the second.
TWO = """\
CREATE SCHEMA s;
CREATE TABLE t (id integer PRIMARY KEY);
CREATE TABLE s."T u" (flag boolean PRIMARY KEY);
CREATE PUBLICATION p FOR TABLE t;
CREATE SUBSCRIPTION s0 CONNECTION '' PUBLICATION p;
"""

# A catalog, and the status and the output.
LINES: list[tuple[str, int, str | Outline]] = [
    ("", 0, ""),
    ("CREATE TABLE t (id integer PRIMARY KEY);", 1, Outline("counter public.t (", ") owners none\n", lines=1)),
    (TWO, 1, Outline("o 0\ncounter s.T u (", "E) owners none\n", lines=2)),
    ("%%\n", 3, "input\n"),
    ("CREATE;", 3, "catalog 6 Expected\n"),
]


def cases() -> Iterator[Case | Made]:
    """Yields a run of make for each, and one of check if there should be a certificate."""
    words = ("make",)
    for number, (first, second) in enumerate(SOUND, 1):
        yield Made(f"make of sound halves, case {number}", halves(first, second))
    yield Made("make of three regions", REGIONS)
    for number, (first, second, begin, end) in enumerate(WRONG, 1):
        yield Case(f"make of wrong halves, case {number}", words, halves(first, second), 1, Outline(begin, end))
    for number, (catalog, status, expected) in enumerate(LINES, 1):
        yield Case(f"the lines of make, case {number}", words, catalog, status, expected)
