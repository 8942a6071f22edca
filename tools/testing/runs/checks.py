"""Shardings of one table that are accepted or refused."""

from collections.abc import Iterator

from .case import ACCEPTED, Case, two_parts
from .catalogs import INDEXED, REGIONS, C, halves

# As C, but two conditions define the second half.
THREE = "s 0 s 1 e 0 s 2 e 0 o 0 n 2 n 1 s 1 o 1 s 2 o 1 e 0 n 2 n 1 n 0\n"

# The same, but without the rows that neither of those two conditions takes.
HOLE = "s 0 s 1 e 0 s 2 e 0 o 0 n 2 n 1 s 1 o 1 e 0 n 1 n 0\n"

# The certificate of REGIONS.
BY_REGION = "s 0 s 1 e 0 s 2 e 0 o 0 n 2 e 0 s 1 s 2 e 0 o 1 n 2 e 0 e 0 s 1 e 0 e 0 s 2 o 2 e 0 n 2\n"

LOW = " WHERE (id < 100)"
HIGH = " WHERE (id >= 100)"

# The conditions of two halves, the lines of certificates, and the status and the line.
HALVES: list[tuple[str, str, str, int, str]] = [
    (LOW, HIGH, C, 0, ACCEPTED),
    (LOW, HIGH, "o 0", 1, "refused NotOwner public.t 0\n"),
    (LOW, HIGH, "o 1", 1, "refused NotOwner public.t 0\n"),
    (LOW, HIGH, "o 2\n", 1, "refused BadIndex public.t 0\n"),
    (LOW, HIGH, "e 0\n", 1, "refused NotEmpty public.t 0\n"),
    (LOW, HIGH, "e 1\n", 1, "refused BadIndex public.t 0\n"),
    (LOW, HIGH, "n 0\n", 1, "refused MayBeNull public.t 0\n"),
    (LOW, HIGH, "n 2\n", 1, "refused BadIndex public.t 0\n"),
    (LOW, HIGH, "s 0 s 7 e 0 e 0 e 0 e 0 e 0\n", 1, "refused BadIndex public.t 1\n"),
    (LOW, HIGH, "s 0 n 0 o 0 e 0\n", 1, "refused MayBeNull public.t 1\n"),
    (LOW, HIGH, "", 1, "refused CertCount\n"),
    (LOW, HIGH, "o 0\no 1\n", 1, "refused CertCount\n"),
    (LOW, HIGH, "s 0 o", 3, "certificate 1 Ended\n"),
    (LOW, HIGH, "\n", 3, "certificate 1 Ended\n"),
    (LOW, HIGH, "o 0 \n", 3, "certificate 1 Trailing\n"),
    (LOW, HIGH, "o 2 x\n", 3, "certificate 1 Trailing\n"),
    (LOW, HIGH, "o 0\r\n", 3, "certificate 1 BadToken\n"),
    (LOW, HIGH, "s 0 o 7 q\n", 3, "certificate 1 BadToken\n"),
    (LOW, HIGH, "o 0\n\n", 3, "certificate 2 Ended\n"),
    (LOW, HIGH, "o 0\no 1\n\n", 3, "certificate 3 Ended\n"),
    (LOW, HIGH, "o 0\no 1\nx 1\n\n", 3, "certificate 3 BadToken\n"),
    (
        " WHERE (region = 'eu')", " WHERE (region <> 'eu')", "s 0 s 1 e 0 o 0 e 0 s 1 o 1 e 0 e 0 n 0\n",
        1, "refused MayBeNull public.t 9\n",
    ),
    (" WHERE (id % 2 = 0)", " WHERE (id % 2 = 1 OR id % 2 = -1)", THREE, 0, ACCEPTED),
    (" WHERE (id = 5)", " WHERE (id < 5 OR id > 5)", THREE, 0, ACCEPTED),
    (" WHERE (id = 5)", " WHERE (id < 5 OR id > 5)", HOLE, 1, "refused NotEmpty public.t 10\n"),
    (" WHERE (id BETWEEN 1 AND 9)", " WHERE (id NOT BETWEEN 1 AND 9)", "s 0 o 0 o 1 n 0\n", 0, ACCEPTED),
    (
        " WHERE (region IN ('us', 'eu'))", " WHERE (region NOT IN ('eu', 'us') OR region IS NULL)",
        "s 0 s 1 e 0 o 0 n 1 o 1 s 1 o 1 e 0 n 1\n", 0, ACCEPTED,
    ),
    (
        " WHERE (region IN ('us', 'eu'))", " WHERE (region NOT IN ('eu', 'us') OR region IS NULL)",
        "s 0 s 1 e 0 o 0 n 1 o 1 e 0\n", 1, "refused NotEmpty public.t 6\n",
    ),
    (
        " WHERE (region IS DISTINCT FROM 'eu')", " WHERE (region IS NOT DISTINCT FROM 'eu')", "s 0 o 0 o 1 n 0\n",
        0, ACCEPTED,
    ),
    ("", "", "o 0\n", 1, "refused SecondOwner public.t 0 s1\n"),
    ("", "", "o 1\n", 1, "refused SecondOwner public.t 0 s0\n"),
]

# The rows of a table are divided by a condition and its negation.
NOT_LOW = " WHERE (NOT id < 100)"

# Rows with any key are divided by whether their region is null, which is expressed by a comparison that is unknown.
UNKNOWN = "(region = 'eu') IS UNKNOWN"
KNOWN_REGIONS = f" WHERE ((id < 100 OR NOT id < 100) AND NOT ({UNKNOWN}))"
UNKNOWN_REGIONS = f" WHERE ((id < 100 OR NOT id < 100) AND {UNKNOWN})"

# A condition that contains the same part 120 times, and its negation.
OFTEN = " OR ".join(["id < 100 AND region IS NULL"] * 120)
IS_OFTEN = f" WHERE ({OFTEN})"
NOT_OFTEN = f" WHERE (NOT ({OFTEN}))"

# A condition of 64 atoms, and its negation.
MANY = " OR ".join(f"id < {bound}" for bound in range(64))
IS_MANY = f" WHERE ({MANY})"
NOT_MANY = f" WHERE (NOT ({MANY}))"


def one_after_another(last: int) -> str:
    """Returns a split by each of 64 atoms, each in the false branch of the one before. The first subscriber has the
    rows for which one of them is true, and this one those for which all are false."""
    splits = "".join(f"s {atom} o 0 " for atom in range(64))
    ends = "".join(f" n {atom}" for atom in reversed(range(64)))
    return f"{splits}o {last}{ends}\n"


# As HALVES, with atoms that occur again on a path, that are open again after their split, or that occur in conditions
# many times.
PATHS: list[tuple[str, str, str, int, str]] = [
    (LOW, NOT_LOW, "s 0 o 0 o 1 n 0\n", 0, ACCEPTED),
    (LOW, NOT_LOW, "s 0 o 1 o 0 n 0\n", 1, "refused NotOwner public.t 1\n"),
    (LOW, NOT_LOW, "s 0 s 0 o 0 o 0 o 0 o 1 n 0\n", 0, ACCEPTED),
    (LOW, NOT_LOW, "s 0 s 0 o 0 o 1 o 0 o 1 n 0\n", 1, "refused NotOwner public.t 3\n"),
    (LOW, NOT_LOW, "s 0 s 0 o 0 o 0 o 1 o 1 n 0\n", 1, "refused NotOwner public.t 4\n"),
    (LOW, NOT_LOW, "s 0 o 0 s 0 o 1 o 1 o 1 n 0\n", 0, ACCEPTED),
    (LOW, NOT_LOW, "s 0 o 0 s 0 s 0 o 1 o 0 o 1 o 1 o 1 n 0\n", 1, "refused NotOwner public.t 5\n"),
    (KNOWN_REGIONS, UNKNOWN_REGIONS, "s 0 s 1 o 0 o 0 o 1 s 1 o 0 o 0 o 1 n 0\n", 0, ACCEPTED),
    (
        KNOWN_REGIONS, UNKNOWN_REGIONS, "s 1 s 0 o 0 o 0 n 0 s 0 o 0 o 0 n 0 s 0 o 1 o 1 n 0\n",
        0, ACCEPTED,
    ),
    (KNOWN_REGIONS, UNKNOWN_REGIONS, "s 0 s 1 o 0 o 0 o 1 o 1 n 0\n", 1, "refused NotOwner public.t 5\n"),
    (KNOWN_REGIONS, UNKNOWN_REGIONS, "s 0 s 1 o 0 o 0 o 1 o 0 n 0\n", 1, "refused NotOwner public.t 5\n"),
    (KNOWN_REGIONS, UNKNOWN_REGIONS, "s 0 s 1 o 0 o 0 o 0 o 1 n 0\n", 1, "refused NotOwner public.t 4\n"),
    (KNOWN_REGIONS, UNKNOWN_REGIONS, "s 1 o 0 o 0 o 1\n", 1, "refused NotOwner public.t 1\n"),
    (IS_OFTEN, NOT_OFTEN, "s 0 s 1 o 0 o 1 n 1 o 1 n 0\n", 0, ACCEPTED),
    (IS_OFTEN, NOT_OFTEN, "s 1 s 0 o 0 o 1 n 0 o 1 n 1\n", 0, ACCEPTED),
    (IS_OFTEN, NOT_OFTEN, "s 0 s 1 o 0 o 1 n 1 o 0 n 0\n", 1, "refused NotOwner public.t 5\n"),
    (IS_OFTEN, NOT_OFTEN, "s 1 s 0 o 0 o 1 n 0 o 0 n 1\n", 1, "refused NotOwner public.t 5\n"),
    (IS_OFTEN, "", "s 0 s 1 o 0 o 1 n 1 o 1 n 0\n", 1, "refused SecondOwner public.t 2 s1\n"),
    (IS_MANY, NOT_MANY, one_after_another(1), 0, ACCEPTED),
    (IS_MANY, NOT_MANY, one_after_another(0), 1, "refused NotOwner public.t 128\n"),
]

# Two publications of a table, one of which publishes too few operations.
INSERTS = """\
CREATE TABLE t (id integer, region text, PRIMARY KEY (id));
CREATE PUBLICATION pa FOR TABLE t WHERE (region = 'eu') WITH (publish = 'insert');
CREATE PUBLICATION pb FOR TABLE t WHERE (id >= 100);
CREATE SUBSCRIPTION s0 CONNECTION '' PUBLICATION pa;
CREATE SUBSCRIPTION s1 CONNECTION '' PUBLICATION pb;
"""

# Halves of a table. The publication of one does not publish truncate.
KEEPS = """\
CREATE TABLE t (id integer PRIMARY KEY);
CREATE PUBLICATION pa FOR TABLE t WHERE (id < 100) WITH (publish = 'insert, update, delete');
CREATE PUBLICATION pb FOR TABLE t WHERE (id >= 100);
CREATE SUBSCRIPTION s0 CONNECTION '' PUBLICATION pa;
CREATE SUBSCRIPTION s1 CONNECTION '' PUBLICATION pb;
"""

# As INSERTS, but it publishes all operations, and its filter uses a column outside the primary key.
OUTSIDE = """\
CREATE TABLE t (id integer, region text, PRIMARY KEY (id));
CREATE PUBLICATION pa FOR TABLE t WHERE (region = 'eu');
CREATE PUBLICATION pb FOR TABLE t WHERE (id >= 100);
CREATE SUBSCRIPTION s0 CONNECTION '' PUBLICATION pa;
CREATE SUBSCRIPTION s1 CONNECTION '' PUBLICATION pb;
"""

# Halves by a boolean column. Rows in which it is null go to neither: a value that is neither TRUE nor FALSE may be
# null.
TRUTHS = """\
CREATE TABLE t (id integer, ok boolean, PRIMARY KEY (id));
ALTER TABLE t REPLICA IDENTITY FULL;
CREATE PUBLICATION pa FOR TABLE t WHERE (ok IS NOT DISTINCT FROM TRUE);
CREATE PUBLICATION pb FOR TABLE t WHERE (ok IS NOT DISTINCT FROM FALSE);
CREATE SUBSCRIPTION s0 CONNECTION '' PUBLICATION pa;
CREATE SUBSCRIPTION s1 CONNECTION '' PUBLICATION pb;
"""

# The replica identity is an index, and the filter of one half uses another column.
BESIDE = """\
CREATE TABLE u (id integer, code text NOT NULL, note text, PRIMARY KEY (id));
CREATE UNIQUE INDEX u_code ON u (code);
ALTER TABLE u REPLICA IDENTITY USING INDEX u_code;
CREATE PUBLICATION pa FOR TABLE u WHERE (id < 5);
CREATE PUBLICATION pb FOR TABLE u WHERE (code <> 'a');
CREATE SUBSCRIPTION s0 CONNECTION '' PUBLICATION pa;
CREATE SUBSCRIPTION s1 CONNECTION '' PUBLICATION pb;
"""

# The index's column may be null.
NULLABLE = """\
CREATE TABLE u (id integer, code text, note text, PRIMARY KEY (id));
CREATE UNIQUE INDEX u_code ON u (code);
ALTER TABLE u REPLICA IDENTITY USING INDEX u_code;
"""

# Halves of a table whose old rows are not logged.
NOTHING = """\
CREATE TABLE t (id integer, region text, PRIMARY KEY (id));
ALTER TABLE t REPLICA IDENTITY NOTHING;
CREATE PUBLICATION pa FOR TABLE t WHERE (id < 100);
CREATE PUBLICATION pb FOR TABLE t WHERE (id >= 100);
CREATE SUBSCRIPTION s0 CONNECTION '' PUBLICATION pa;
CREATE SUBSCRIPTION s1 CONNECTION '' PUBLICATION pb;
"""

# One of two subscribers gets nothing of the table.
ALONE = """\
CREATE TABLE t (id integer, region text, PRIMARY KEY (id));
CREATE PUBLICATION pa;
CREATE PUBLICATION pb FOR TABLE t;
CREATE SUBSCRIPTION s0 CONNECTION '' PUBLICATION pa;
CREATE SUBSCRIPTION s1 CONNECTION '' PUBLICATION pb;
"""

ALL = "insert, update, delete, truncate"


def by_region(identity: str, publishes: str) -> str:
    """Returns a table with this replica identity. The first subscriber takes its rows by a column outside the primary
    key, from a publication of these operations."""
    return f"""\
CREATE TABLE t (id integer, region text, PRIMARY KEY (id));
CREATE UNIQUE INDEX i ON t (id);
ALTER TABLE t REPLICA IDENTITY {identity};
CREATE PUBLICATION pa FOR TABLE t WHERE (region = 'eu') WITH (publish = '{publishes}');
CREATE PUBLICATION pb FOR TABLE t WHERE (id >= 100);
CREATE PUBLICATION pc FOR TABLE t WHERE (region = 'us') WITH (publish = '');
CREATE SUBSCRIPTION s0 CONNECTION '' PUBLICATION pa;
CREATE SUBSCRIPTION s1 CONNECTION '' PUBLICATION pb;
"""


# A catalog, the lines of certificates, and the status and the line.
CATALOGS: list[tuple[str, str, int, str]] = [
    (REGIONS, BY_REGION, 0, ACCEPTED),
    (INSERTS, C, 1, "refused PublishMissing pa update\n"),
    (INSERTS, "", 1, "refused PublishMissing pa update\n"),
    (KEEPS, C, 1, "refused PublishMissing pa truncate\n"),
    (ALONE, "o 1\n", 0, ACCEPTED),
    (by_region("NOTHING", ""), "", 1, "refused PublishMissing pa insert\n"),
    (by_region("NOTHING", ""), "o\n", 3, "certificate 1 Ended\n"),
    (by_region("NOTHING", "insert"), "", 1, "refused PublishMissing pa update\n"),
    (by_region("NOTHING", "insert, update"), "", 1, "refused PublishMissing pa delete\n"),
    (by_region("NOTHING", "insert, update, delete"), "", 1, "refused PublishMissing pa truncate\n"),
    (by_region("NOTHING", ALL), "", 1, "refused NoIdentity public.t\n"),
    (by_region("DEFAULT", ALL), "", 1, "refused NotCovered pa public.t region\n"),
    (by_region("USING INDEX i", ALL), "", 1, "refused NotCovered pa public.t region\n"),
    (by_region("FULL", ALL), "", 1, "refused CertCount\n"),
    (OUTSIDE, C, 1, "refused NotCovered pa public.t region\n"),
    (INDEXED, C, 0, ACCEPTED),
    (BESIDE, C, 1, "refused NotCovered pa public.u id\n"),
    (NULLABLE, C, 3, "catalog 152 NullableIndex\n"),
    (TRUTHS, "s 0 s 1 e 0 o 1 n 1 s 1 o 0 e 0 n 1 n 0\n", 1, "refused NotEmpty public.t 2\n"),
    (NOTHING, C, 1, "refused NoIdentity public.t\n"),
    (NOTHING, "o\n", 3, "certificate 1 Ended\n"),
    ("", "", 0, ACCEPTED),
    ("CREATE SCHEMA west;\n", "", 0, ACCEPTED),
    ("", C, 1, "refused CertCount\n"),
    ("", "\n", 3, "certificate 1 Ended\n"),
    ("CREATE TABLE t (id integer);\n", "o\n", 3, "catalog 13 NoKey\n"),
    ("%%\n", "o\n", 3, "input\n"),
]

# A certificate of 65 nested splits, which then ends.
DEEP = "s 0 " * 65

# The answer for a tree of 8 levels of splits by the first atom: at its first leaf, the second atom is open.
OPEN = "refused SecondOwner public.t 8 s1\n"


def tree_of(levels: int) -> str:
    """Returns a tree of this many levels of splits by the first atom. With 8 levels it has 9,841 nodes."""
    below = tree_of(levels - 1) if levels else ""
    return f"s 0 {below} {below} {below}" if levels else "o 0"


def cases() -> Iterator[Case]:
    """Yields a run of check for each."""
    words = ("check",)
    for number, (first, second, certificates, status, expected) in enumerate(HALVES, 1):
        text = two_parts(halves(first, second), certificates)
        yield Case(f"check of halves, case {number}", words, text, status, expected)
    for number, (first, second, certificates, status, expected) in enumerate(PATHS, 1):
        text = two_parts(halves(first, second), certificates)
        yield Case(f"check of a path, case {number}", words, text, status, expected)
    for number, (catalog, certificates, status, expected) in enumerate(CATALOGS, 1):
        yield Case(f"check of a catalog, case {number}", words, two_parts(catalog, certificates), status, expected)
    yield Case("check of a deep certificate", words, two_parts(halves("", ""), DEEP), 3, "certificate 1 TooDeep\n")
    yield Case("check of 9,841 nodes", words, two_parts(halves(LOW, HIGH), tree_of(8)), 1, OPEN)
