"""Rows of a table, and the Insert messages that eval prints for them."""

from collections.abc import Iterator

from .case import Case, two_parts
from .catalogs import BASE

HALF = "CREATE TABLE t (id integer PRIMARY KEY, n integer); CREATE PUBLICATION p FOR TABLE t WHERE (n > 1);\n"

BOTH = """\
CREATE TABLE t (id integer PRIMARY KEY, n integer); CREATE PUBLICATION p FOR TABLE t WHERE (n > 1);
        CREATE PUBLICATION q FOR TABLE t WHERE (n > 2);
"""

SECOND = """\
CREATE TABLE s (id integer PRIMARY KEY); CREATE TABLE t (id bigint PRIMARY KEY);
        CREATE PUBLICATION p FOR TABLE t;
"""

OTHER = """\
CREATE TABLE t (id integer PRIMARY KEY); CREATE TABLE s (id integer PRIMARY KEY);
        CREATE PUBLICATION p FOR TABLE s;
"""

KINDS = """\
CREATE TABLE t (id smallint PRIMARY KEY, n bigint, a boolean, b boolean, e text);
        CREATE PUBLICATION p FOR TABLE t;
"""

# A catalog and rows, and the output and the status.
INSERTS: list[tuple[str, str, str, int]] = [
    (
        BASE, "(7, 'eu')\n(0, '')\n(100, NULL)\n",
        "49000040004e000274000000013774000000026575\n"
        "49000040004e00027400000001307400000000\n"
        "49000040004e000274000000033130306e\n", 0,
    ),
    (
        HALF, "(1, 2)\n(1, 1)\n(1, NULL)\n(1, 1)\n",
        "49000040004e0002740000000131740000000132\nnone\nnone\nnone\n", 0,
    ),
    (
        BOTH, "(1, 2)\n(1, 3)\n(1, 1)\n",
        "49000040004e0002740000000131740000000132\n"
        "49000040004e0002740000000131740000000133\n"
        "none\n", 0,
    ),
    (
        HALF, "(1\n(1)\n(NULL, 2)\n(2147483648, 2)\n(1, 2)\n",
        "unreadable 2 Expected\ninvalid Width\ninvalid NullInNotNull 0\ninvalid OutOfRange 0\n"
        "49000040004e0002740000000131740000000132\n", 1,
    ),
    (SECOND, "(10)\n", "49000040014e000174000000023130\n", 0),
    (OTHER, "(10)\n", "none\n", 0),
    (
        KINDS, "(-32768, 9223372036854775807, TRUE, FALSE, 'é€')\n",
        "49000040004e000574000000062d3332373638740000001339323233333732303336383534373735383037"
        "7400000001747400000001667400000005c3a9e282ac\n", 0,
    ),
]


def cases() -> Iterator[Case]:
    """Yields a run of eval for each, and one with the flag before the table's name."""
    for number, (catalog, rows, expected, status) in enumerate(INSERTS, 1):
        for words in ("eval", "t", "--insert"), ("eval", "--insert", "t"):
            name = f"{' '.join(words)}, case {number}"
            yield Case(name, words, two_parts(catalog, rows), status, expected)
