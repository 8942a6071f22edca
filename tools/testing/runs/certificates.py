"""Certificates of several tables, and refusals that name objects of a catalog."""

from collections.abc import Iterator

from .case import ACCEPTED, Case, two_parts

# Three tables, two with the same name: the first is split in two, and the others are carried whole. The publications,
# the subscriptions and the tables are numbered differently.
MANY = """\
CREATE SCHEMA west;
CREATE TABLE t (id integer, region text, PRIMARY KEY (id));
CREATE TABLE west.t (id integer, region text, PRIMARY KEY (id));
CREATE TABLE "T.u" (id integer PRIMARY KEY);
CREATE PUBLICATION unused FOR TABLE t WHERE (region = 'eu') WITH (publish = '');
CREATE PUBLICATION pa FOR TABLE t WHERE (id < 100), west.t;
CREATE PUBLICATION "p b" FOR TABLE t WHERE (id >= 100), "T.u";
CREATE SUBSCRIPTION high CONNECTION '' PUBLICATION "p b";
CREATE SUBSCRIPTION "low one" CONNECTION '' PUBLICATION pa;
"""

# The halves of the first table: `high` has the first of its conditions, and `low one` the second.
MANY_T = "s 0 s 1 e 0 o 0 n 1 s 1 o 1 e 0 n 1 n 0"

# A certificate for each table, and the status and the line.
THREE: list[tuple[str, str, str, int, str]] = [
    (MANY_T, "o 1", "o 0", 0, ACCEPTED),
    (MANY_T, "o 0", "o 0", 1, "refused NotOwner west.t 0\n"),
    (MANY_T, "o 1", "o 1", 1, "refused NotOwner public.T.u 0\n"),
    (MANY_T, "o 1", MANY_T, 1, "refused BadIndex public.T.u 0\n"),
    (MANY_T, "o 2", "o 1", 1, "refused BadIndex west.t 0\n"),
    ("o 0", "o 1", MANY_T, 1, "refused NotOwner public.t 0\n"),
    ("x", "o 1", "o 0", 3, "certificate 1 BadToken\n"),
    ("o 1 ", "x", "o 0", 3, "certificate 1 Trailing\n"),
    (MANY_T, "o", "o 0", 3, "certificate 2 Ended\n"),
    (MANY_T, "o 1", "o", 3, "certificate 3 Ended\n"),
    ("o 0", "o 1", "", 3, "certificate 3 Ended\n"),
]

# What follows MANY in a catalog, the lines of certificates, and the status and the line.
NAMES: list[tuple[str, str, int, str]] = [
    (
        "CREATE PUBLICATION pd FOR TABLE west.t;\n"
        "CREATE SUBSCRIPTION \"an other\" CONNECTION '' PUBLICATION pd;\n",
        "s 0 s 1 e 0 o 0 n 1 s 1 o 1 e 0 n 1 n 0\no 1\no 0\n",
        1, "refused SecondOwner west.t 0 an other\n",
    ),
    ("", "o 1\no 1\n", 1, "refused CertCount\n"),
    ("ALTER TABLE \"T.u\" REPLICA IDENTITY NOTHING;\n", "", 1, "refused NoIdentity public.T.u\n"),
    ("ALTER TABLE west.t REPLICA IDENTITY NOTHING;\n", "", 1, "refused NoIdentity west.t\n"),
    (
        "CREATE SUBSCRIPTION other CONNECTION '' PUBLICATION unused;\n", "",
        1, "refused PublishMissing unused insert\n",
    ),
    (
        "CREATE PUBLICATION pd FOR TABLE t, west.t WHERE (id = 1 AND region = 'eu');\n"
        "CREATE SUBSCRIPTION other CONNECTION '' PUBLICATION pd;\n",
        "", 1, "refused NotCovered pd west.t region\n",
    ),
    (
        "CREATE PUBLICATION pd FOR TABLE west.t WITH (publish = 'update, insert');\n"
        "CREATE SUBSCRIPTION other CONNECTION '' PUBLICATION pd;\n",
        "", 1, "refused PublishMissing pd delete\n",
    ),
]


def cases() -> Iterator[Case]:
    """Yields a run of check for each."""
    words = ("check",)
    for number, (first, second, third, status, expected) in enumerate(THREE, 1):
        text = two_parts(MANY, f"{first}\n{second}\n{third}\n")
        yield Case(f"certificates of three tables, case {number}", words, text, status, expected)
    for number, (more, certificates, status, expected) in enumerate(NAMES, 1):
        text = two_parts(MANY + more, certificates)
        yield Case(f"what a refusal names, case {number}", words, text, status, expected)
