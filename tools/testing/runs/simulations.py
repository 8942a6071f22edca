"""Step by step, where the rows of a sharding go."""

from collections.abc import Iterator

from .case import Case
from .catalogs import INDEXED, C, halves

# Rows with a number below 100 go to s0, and the others to s1.
B = halves(" WHERE (id < 100)", " WHERE (id >= 100)")

# Two tables, both divided by their numbers.
TWO = """\
CREATE TABLE t (id integer PRIMARY KEY, note text);
CREATE TABLE u (id bigint PRIMARY KEY, flag boolean);
ALTER TABLE t REPLICA IDENTITY FULL;
CREATE PUBLICATION pa FOR TABLE t WHERE (id < 100), TABLE u WHERE (id < 100);
CREATE PUBLICATION pb FOR TABLE t WHERE (id >= 100), TABLE u WHERE (id >= 100);
CREATE SUBSCRIPTION s0 CONNECTION '' PUBLICATION pa;
CREATE SUBSCRIPTION s1 CONNECTION '' PUBLICATION pb;
"""

# How many rows are inserted and deleted, and how many of them in a commit.
MANY = 10_000
EACH = 100

# Scripts, and the lines of their answers.
STEPS: list[tuple[str, list[str]]] = [
    ("", []),
    (
        "COMMIT INSERT t (150, 'us'); OPEN 0; HEAR 0 91; TAKE 0; COMMIT INSERT t (8, 'eu');"
        " KEEP 0 FALSE; DELIVER 0 31; REPORT 0; HEAR 0 39; VIEW;",
        [
            "commit 1", "opened", "heard 91", "skipped 1", "commit 2", "kept", "delivered 31", "reported", "heard 39",
            "log 2", "public.t (8, 'eu')", "public.t (150, 'us')", "s0 0/80 1 confirmed 0/80",
            "s1 0/0 0 confirmed 0/0",
        ],
    ),
    (
        "COMMIT INSERT t (7, 'eu'); OPEN 0; PUMP 0; COMMIT UPDATE t (7) (8, 'eu'); TAKE 0; DELIVER 0 80; LOSE 0;"
        " OPEN 0; HEAR 0 92; TAKE 0; DELIVER 0 257; VIEW;",
        [
            "commit 1", "opened", "at 0/80", "commit 2", "sent 2", "delivered 80", "lost", "opened", "heard 92",
            "sent 2", "delivered 257", "log 2", "public.t (8, 'eu')", "s0 0/C0 2 confirmed 0/80",
            "s0 public.t (8, 'eu')", "s1 0/0 0 confirmed 0/0",
        ],
    ),
    (
        "COMMIT INSERT t (7, 'eu'); OPEN 0; HEAR 0 91; TAKE 0; DELIVER 0 241; REPORT 0; LOSE 0; OPEN 0; HEAR 0 92;"
        " TAKE 0; VIEW;",
        [
            "commit 1", "opened", "heard 91", "sent 1", "delivered 241", "reported", "lost", "opened", "heard 92",
            "idle", "log 1", "public.t (7, 'eu')", "s0 0/80 1 confirmed 0/0", "s0 public.t (7, 'eu')",
            "s1 0/0 0 confirmed 0/0",
        ],
    ),
    (
        "OPEN 0; PUMP 0; VIEW;",
        ["opened", "at 0/40", "log 0", "s0 0/40 0 confirmed 0/40", "s1 0/0 0 confirmed 0/0"],
    ),
    (
        "COMMIT INSERT t (7, 'eu'), INSERT t (150, 'us'); OPEN 0; OPEN 1; PUMP 0; PUMP 1; VIEW;",
        [
            "commit 1", "opened", "opened", "at 0/80", "at 0/80", "log 1", "public.t (7, 'eu')",
            "public.t (150, 'us')", "s0 0/80 1 confirmed 0/80", "s0 public.t (7, 'eu')",
            "s1 0/80 1 confirmed 0/80", "s1 public.t (150, 'us')",
        ],
    ),
    (
        "COMMIT INSERT t (7, 'eu'); COMMIT UPDATE t (7) (150, 'eu'), UPDATE t (150) (7, 'eu');"
        " OPEN 0; OPEN 1; PUMP 0; PUMP 1; VIEW;",
        [
            "commit 1", "commit 2", "opened", "opened", "at 0/C0", "at 0/C0", "log 2", "public.t (7, 'eu')",
            "s0 0/C0 2 confirmed 0/C0", "s0 public.t (7, 'eu')", "s1 0/C0 2 confirmed 0/C0",
        ],
    ),
    (
        "COMMIT INSERT t (7, 'eu'), INSERT t (150, 'us'); COMMIT TRUNCATE (t), INSERT t (8, 'eu');"
        " OPEN 0; OPEN 1; PUMP 0; PUMP 1; VIEW;",
        [
            "commit 1", "commit 2", "opened", "opened", "at 0/C0", "at 0/C0", "log 2", "public.t (8, 'eu')",
            "s0 0/C0 2 confirmed 0/C0", "s0 public.t (8, 'eu')", "s1 0/C0 2 confirmed 0/C0",
        ],
    ),
    (
        "open 2; take 0; report 1 true; lose 1; OPEN 0; OPEN 0; TAKE 0; KEEP 0 TRUE; REPORT 0; REPORT 0 TRUE;",
        [
            "no subscriber", "not open", "not open", "not open", "opened", "already open", "not started",
            "not started", "reported", "reported",
        ],
    ),
]

# Scripts for a log of at most two commits.
FULL: list[tuple[str, list[str]]] = [
    (
        "COMMIT INSERT t (1, 'a'), INSERT t (1, 'b'); COMMIT; COMMIT DELETE t (1); VIEW;",
        [
            "refused At 2 DuplicateKey", "refused EmptyTransaction", "refused At 1 NoSuchRow", "log 0",
            "s0 0/0 0 confirmed 0/0", "s1 0/0 0 confirmed 0/0",
        ],
    ),
    (
        "COMMIT INSERT t (1, 'a'); COMMIT INSERT t (2, 'b'); COMMIT INSERT t (3, 'c');",
        ["commit 1", "commit 2", "refused LogFull"],
    ),
    (
        "COMMIT INSERT t (2147483648, 'a'); COMMIT INSERT t (1, 'a', 2); COMMIT INSERT t (NULL, 'a');"
        " COMMIT INSERT t (TRUE, 'a');",
        [
            "refused At 1 Row OutOfRange 0", "refused At 1 Row Width", "refused At 1 Row NullInNotNull 0",
            "refused At 1 Row WrongType 0",
        ],
    ),
]

# One table is truncated, and the other is not.
EMPTIED = (
    "COMMIT INSERT t (1, 'a'), INSERT t (100, NULL), INSERT u (-5, TRUE), INSERT u (100, FALSE); OPEN 0; OPEN 1;"
    " PUMP 0; PUMP 1; COMMIT TRUNCATE (t), INSERT t (2, 'b'); PUMP 0; VIEW;",
    [
        "commit 1", "opened", "opened", "at 0/80", "at 0/80", "commit 2", "at 0/C0", "log 2", "public.t (2, 'b')",
        "public.u (-5, TRUE)", "public.u (100, FALSE)", "s0 0/C0 2 confirmed 0/C0", "s0 public.t (2, 'b')",
        "s0 public.u (-5, TRUE)", "s1 0/80 1 confirmed 0/80", "s1 public.t (100, NULL)", "s1 public.u (100, FALSE)",
    ],
)

# Rows that are identified by an index are changed.
CODES = (
    "COMMIT INSERT u (1, 'a', NULL); COMMIT UPDATE u (1) (2, 'a', 'x'); COMMIT INSERT u (3, 'a', NULL);"
    " COMMIT UPDATE u (2) (2, 'b', 'x'); OPEN 0; OPEN 1; PUMP 0; PUMP 1; VIEW;",
    [
        "commit 1", "commit 2", "refused At 1 DuplicateKey", "commit 3", "opened", "opened", "at 0/100", "at 0/100",
        "log 3", "public.u (2, 'b', 'x')", "s0 0/100 3 confirmed 0/100", "s1 0/100 3 confirmed 0/100",
        "s1 public.u (2, 'b', 'x')",
    ],
)

# A table with several unique indexes, and the values that two rows may not share.
SEVERAL = INDEXED.replace(
    "ALTER", "CREATE UNIQUE INDEX u_note ON u (note, id);\nCREATE UNIQUE INDEX u_last ON u (note);\nALTER")
TAKEN = (
    "COMMIT INSERT u (1, 'a', NULL), UPDATE u (1) (2, 'a', 'x'); COMMIT INSERT u (3, 'a', NULL);"
    " COMMIT INSERT u (3, 'c', 'x'); COMMIT INSERT u (3, 'c', NULL), INSERT u (4, 'd', NULL);"
    " COMMIT UPDATE u (2) (2, 'b', 'x'); COMMIT UPDATE u (3) (3, 'b', NULL);"
    " COMMIT DELETE u (2), UPDATE u (3) (3, 'b', 'x'); VIEW;",
    [
        "commit 1", "refused At 1 DuplicateKey", "refused At 1 DuplicateKey", "commit 2", "commit 3",
        "refused At 1 DuplicateKey", "commit 4", "log 4", "public.u (3, 'b', 'x')", "public.u (4, 'd', NULL)",
        "s0 0/0 0 confirmed 0/0", "s1 0/0 0 confirmed 0/0",
    ],
)

# Tables are truncated in the middle of a list, and by a list that is refused.
BOTH_EMPTIED = (
    "COMMIT INSERT t (1, 'a'), INSERT u (2, TRUE); COMMIT TRUNCATE (t, u), DELETE t (1); VIEW;"
    " COMMIT INSERT u (3, FALSE), TRUNCATE (u, t, u), INSERT u (4, NULL), INSERT u (5, TRUE), DELETE u (5); VIEW;",
    [
        "commit 1", "refused At 2 NoSuchRow", "log 1", "public.t (1, 'a')", "public.u (2, TRUE)",
        "s0 0/0 0 confirmed 0/0", "s1 0/0 0 confirmed 0/0", "commit 2", "log 2", "public.u (4, NULL)",
        "s0 0/0 0 confirmed 0/0", "s1 0/0 0 confirmed 0/0",
    ],
)

# Rows are in the order of their columns, whatever the key.
KEY_LAST = """\
CREATE TABLE v (region text, ok boolean, id integer PRIMARY KEY);
CREATE PUBLICATION p FOR ALL TABLES;
CREATE SUBSCRIPTION s CONNECTION '' PUBLICATION p;
"""
ORDERED = (
    "COMMIT INSERT v ('b', TRUE, 1), INSERT v ('a', TRUE, 2), INSERT v (NULL, FALSE, 3), INSERT v ('a', FALSE, 4),"
    " INSERT v ('a', NULL, 5), INSERT v ('', TRUE, 6), INSERT v ('B', TRUE, -7), INSERT v ('a', NULL, -8),"
    " DELETE v (1); VIEW;",
    [
        "commit 1", "log 1", "public.v (NULL, FALSE, 3)", "public.v ('', TRUE, 6)", "public.v ('B', TRUE, -7)",
        "public.v ('a', NULL, -8)", "public.v ('a', NULL, 5)", "public.v ('a', FALSE, 4)", "public.v ('a', TRUE, 2)",
        "s 0/0 0 confirmed 0/0",
    ],
)

# Arguments, an input, the status and the output.
OTHERS: list[tuple[tuple[str, ...], str, int, str]] = [
    ((), f"{B}%%\no 0\n%%\nVIEW;\n", 1, "refused NotOwner public.t 0\n"),
    ((), f"{B}%%\n{C}%%\nOPEN 0; PUMP;\n", 3, "script 12 Expected\n"),
    ((), f"{B}%%\no 0\n%%\nPUMP;\n", 3, "script 4 Expected\n"),
    ((), f"{B}%%\nx\n%%\nPUMP;\n", 3, "certificate 1 BadToken\n"),
    ((), f"{B}%%\n{C}", 3, "input\n"),
    ((), f"{B}%%\n{C}%%\nVIEW;\n%%\n", 3, "input\n"),
    ((), f"CREATE;\n%%\n{C}%%\nPUMP;\n", 3, "catalog 6 Expected\n"),
]


def three_parts(catalog: str, certificates: str, script: str) -> str:
    """Returns an input of three parts. The first two end with a newline."""
    return f"{catalog}%%\n{certificates}%%\n{script}"


def lost_downwards(delivered: int) -> tuple[str, list[str]]:
    """Returns a script in which a connection is lost after this many bytes, of 174, of its second transaction, and the
    subscriber reconnects."""
    script = (
        "COMMIT INSERT t (7, 'eu'); OPEN 0; PUMP 0; COMMIT UPDATE t (7) (8, 'eu'); TAKE 0;"
        f" DELIVER 0 {delivered}; LOSE 0; OPEN 0; HEAR 0 92; TAKE 0; DELIVER 0 257; VIEW;")
    again = ["sent 2", "delivered 257"] if delivered < 174 else ["idle", "delivered 8"]
    return script, [
        "commit 1", "opened", "at 0/80", "commit 2", "sent 2", f"delivered {delivered}", "lost", "opened", "heard 92",
        *again, "log 2", "public.t (8, 'eu')", "s0 0/C0 2 confirmed 0/80", "s0 public.t (8, 'eu')",
        "s1 0/0 0 confirmed 0/0",
    ]


def lost_upwards(heard: int) -> tuple[str, list[str]]:
    """Returns a script in which a connection is lost after this many bytes, of 39, of a status."""
    script = (
        "COMMIT INSERT t (7, 'eu'); OPEN 0; HEAR 0 91; TAKE 0; DELIVER 0 241; REPORT 0;"
        f" HEAR 0 {heard}; LOSE 0; VIEW;")
    confirmed = "0/80" if heard == 39 else "0/0"
    return script, [
        "commit 1", "opened", "heard 91", "sent 1", "delivered 241", "reported", f"heard {heard}", "lost", "log 1",
        "public.t (7, 'eu')", f"s0 0/80 1 confirmed {confirmed}", "s0 public.t (7, 'eu')", "s1 0/0 0 confirmed 0/0",
    ]


def many() -> tuple[str, list[str]]:
    """Returns a script in which many rows are inserted in descending order, and then deleted in ascending order."""
    inserts = [f"INSERT t ({key}, NULL)" for key in reversed(range(MANY))]
    deletes = [f"DELETE t ({key})" for key in range(MANY)]
    commands = inserts + deletes
    commits = [", ".join(commands[at:at + EACH]) for at in range(0, len(commands), EACH)]
    script = "".join(f"COMMIT {commit};\n" for commit in commits) + "OPEN 0; PUMP 0; OPEN 1; PUMP 1; VIEW;\n"
    at = end_of(len(commits))
    return script, [
        *(f"commit {number}" for number in range(1, len(commits) + 1)), "opened", f"at {at}", "opened", f"at {at}",
        *view_of(len(commits), [], {"s0": [], "s1": []}),
    ]


def end_of(commits: int) -> str:
    """Returns the end of a log of this many commits: each takes 64 bytes, and 64 come before the first."""
    return f"0/{64 * commits + 64:X}"


def view_of(commits: int, rows: list[str], shards: dict[str, list[str]]) -> list[str]:
    """Returns the lines of VIEW if each subscriber was pumped after this many commits: the rows, each after its table,
    and those of each subscriber, by name."""
    at = end_of(commits)
    lines = [f"log {commits}", *rows]
    for name, shard in shards.items():
        lines += [f"{name} {at} {commits} confirmed {at}", *(f"{name} {row}" for row in shard)]
    return lines


def scripts() -> Iterator[tuple[str, str, tuple[str, list[str]]]]:
    """Yields names, catalogs, and scripts with their lines."""
    for number, steps in enumerate(STEPS, 1):
        yield f"the steps of a script, case {number}", B, steps
    for delivered in range(175):
        yield f"a connection is lost after {delivered} bytes", B, lost_downwards(delivered)
    for heard in range(40):
        yield f"a connection is lost after {heard} bytes of a status", B, lost_upwards(heard)
    yield "many rows come and go", B, many()
    yield "rows are identified by an index", INDEXED, CODES
    yield "values of several indexes are taken", SEVERAL, TAKEN


def cases() -> Iterator[Case]:
    """Yields a run of simulate for each."""
    for name, catalog, (script, lines) in scripts():
        yield Case(name, ("simulate",), three_parts(catalog, C, script), 0, text_of(lines))
    for number, (script, lines) in enumerate(FULL, 1):
        words = ("simulate", "--limit", "2")
        yield Case(f"a log of two commits, case {number}", words, three_parts(B, C, script), 0, text_of(lines))
    for name, (script, lines) in ("a table is emptied", EMPTIED), ("two tables are emptied", BOTH_EMPTIED):
        yield Case(name, ("simulate",), three_parts(TWO, C + C, script), 0, text_of(lines))
    script, lines = ORDERED
    yield Case("rows are ordered", ("simulate",), three_parts(KEY_LAST, "o 0\n", script), 0, text_of(lines))
    for number, (words, text, status, expected) in enumerate(OTHERS, 1):
        yield Case(f"simulate of other inputs, case {number}", ("simulate", *words), text, status, expected)


def text_of(lines: list[str]) -> str:
    """Returns the lines, each with its newline."""
    return "".join(f"{line}\n" for line in lines)
