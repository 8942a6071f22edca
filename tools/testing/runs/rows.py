"""Rows of a table, and what eval prints for each."""

from collections.abc import Iterator

from .case import Case, two_parts
from .catalogs import BASE

ONE = "CREATE TABLE t (id integer PRIMARY KEY, n integer);\n"

FILTERED = "CREATE TABLE t (id integer PRIMARY KEY, n integer); CREATE PUBLICATION p FOR TABLE t WHERE (n > 1);\n"

WHOLE = "CREATE TABLE t (id integer PRIMARY KEY, n integer); CREATE PUBLICATION p FOR TABLE t;\n"

OTHER = """\
CREATE TABLE t (id integer PRIMARY KEY); CREATE TABLE "T.u" (id integer PRIMARY KEY);
        CREATE PUBLICATION p FOR TABLE t; CREATE PUBLICATION q FOR TABLE "T.u" WHERE (id = 1);
"""

# The name of a table, a catalog and rows, and the output and the status.
ROWS: list[tuple[str, str, str, str, int]] = [
    (
        "t", BASE, "(7, 'eu')\n(100, NULL)\n(2147483648, NULL)\n",
        "pa=true pb=false\npa=false pb=true\ninvalid OutOfRange 0\n", 1,
    ),
    ("public.t", BASE, "(7, 'eu')\n(100, NULL)", "pa=true pb=false\npa=false pb=true\n", 0),
    ("t", BASE, "", "", 0),
    ("x.t", BASE, "(7, 'eu')\n", "table x.t\n", 3),
    ("T", BASE, "(7, 'eu')\n", "table T\n", 3),
    ("public.t.t", BASE, "", "table public.t.t\n", 3),
    ("", BASE, "", "table \n", 3),
    ("public.T.u", OTHER, "(1)\n(2)\n", "q=true\nq=false\n", 0),
    ("t", OTHER, "(1)\n", "p=all\n", 0),
    ("t", ONE, "(1, 2)\n(2, NULL)\n", "\n\n", 0),
    ("t", FILTERED, "(1, NULL)\n(1, 2)\n(1, 1)\n", "p=null\np=true\np=false\n", 0),
    ("t", WHOLE, "(1, NULL)\n", "p=all\n", 0),
    (
        "t", FILTERED, "\n(1\n(1)\n(NULL, 2)\n(1, 'a')\n(1, 2) x\n(1, 2)\r\n",
        "unreadable 0 Expected\nunreadable 2 Expected\ninvalid Width\ninvalid NullInNotNull 0\n"
        "invalid WrongType 1\nunreadable 7 Expected\np=true\n", 1,
    ),
    ("t", "CREATE TABLE t (id integer);\n", "(1)\n", "catalog 13 NoKey\n", 3),
    ("u", "CREATE TABLE t (id integer PRIMARY KEY) ; x\n", "(1)\n", "catalog 42 Expected\n", 3),
    ("t", "CREATE UNIQUE", "", "input\n", 3),
    ("t", "CREATE UNIQUE INDEX\n", "", "catalog 20 Expected\n", 3),
]


def cases() -> Iterator[Case]:
    """Yields a run of eval for each."""
    for number, (table, catalog, rows, expected, status) in enumerate(ROWS, 1):
        yield Case(f"eval of rows, case {number}", ("eval", table), two_parts(catalog, rows), status, expected)
