"""Inputs at their limits, with ample memory."""

from collections.abc import Iterator

from model.catalogs import Column, Table
from model.messages import BEGIN, COMMIT, COPY_BOTH, change_length, relation_length

from .case import ACCEPTED, LONG_SECONDS, Case, Made, Outline, two_parts
from .catalogs import C, halves
from .checks import HIGH, LOW
from .inputs import MAX_INPUT
from .simulations import end_of, text_of, three_parts, view_of

# The longest text that a value may have, in bytes.
MAX_TEXT = 65_535

# Rows of the simulation of many tables, each given by its table's number and its key.
Rows = list[tuple[int, int]]


def cases() -> Iterator[Case | Made]:
    """Yields the runs for each limit."""
    yield from columns()
    yield from texts()
    yield from longest_row()
    yield Made("make of the largest sharding", largest_catalog())
    yield from largest_certificate()
    yield from last_nodes()
    yield simulation_of_tables()
    yield simulation_of_columns()
    yield simulation_of_pieces()


def columns() -> Iterator[Case]:
    """Yields a table of 100 columns, and one with one more."""
    defined = ", ".join(f"c{number} integer" for number in range(100))
    values = ", ".join(str(number) for number in range(100))
    catalog = (
        f"CREATE TABLE t ({defined}, PRIMARY KEY (c0)); "
        "CREATE PUBLICATION p FOR TABLE t WHERE (c99 = 99 AND c1 = 1);\n")
    rows = f"({values})\n({values}, 100)\n"
    yield Case("a row of 100 columns", ("eval", "t"), two_parts(catalog, rows), 1, Outline(begin="p=true\n"))
    message = Outline(begin="49000040004e0064740000000130740000000131", end="7400000002393874000000023939\n")
    yield Case("an insert of 100 columns", ("eval", "t", "--insert"), two_parts(catalog, f"({values})"), 0, message)
    wide = f"CREATE TABLE t ({defined}, more integer, PRIMARY KEY (c0));\n"
    yield Case("a table of 101 columns", ("eval", "t"), two_parts(wide, ""), 3, Outline("catalog ", " TooMany\n"))


def texts() -> Iterator[Case]:
    """Yields the longest text, a longer one, and an empty one."""
    catalog = (
        "CREATE TABLE t (id integer PRIMARY KEY, name text); "
        "CREATE PUBLICATION p FOR TABLE t WHERE (name = '' OR id = 1);\n")
    longest = "a" * MAX_TEXT
    rows = f"(1, '{longest}')\n(2, '{longest}')\n(2, '')\n"
    longer = f"(1, 'a{longest}')\n"
    values = "p=true\np=false\np=true\nunreadable 4 TooMany\n"
    yield Case("rows of long texts", ("eval", "t"), two_parts(catalog, rows + longer), 1, values)
    digits = "61" * MAX_TEXT
    messages = (
        f"49000040004e0002740000000131740000ffff{digits}\n"
        "none\n"
        "49000040004e00027400000001327400000000\n")
    yield Case("inserts of long texts", ("eval", "t", "--insert"), two_parts(catalog, rows), 0, messages)


def longest_row() -> Iterator[Case]:
    """Yields a row of 100 texts of quotes that makes the input as long as allowed, and one with a space more."""
    quotes = "''" * MAX_TEXT
    defined = ", ".join(f"c{number} text" for number in range(100))
    values = ", ".join([f"'{quotes}'"] * 100)
    catalog = (
        f"CREATE TABLE t ({defined}, PRIMARY KEY (c0)); "
        "CREATE PUBLICATION p FOR TABLE t WHERE (c99 <> '');\n")
    spaces = " " * (MAX_INPUT - len(two_parts(catalog, f"({values})")))
    longest = two_parts(catalog, f"({values}{spaces})")
    yield Case("the longest row", ("eval", "t"), longest, 0, "p=true\n")
    longer = two_parts(catalog, f"({values}{spaces} )")
    yield Case("a row that is too long", ("eval", "t"), longer, 3, "input\n")


def largest_catalog() -> str:
    """Returns 64 tables, each split into 32 parts by its key."""
    statements = [f"CREATE TABLE t{table} (id integer PRIMARY KEY);\n" for table in range(64)]
    for part in range(32):
        condition = condition_of(part)
        entries = ", ".join(f"t{table} WHERE ({condition})" for table in range(64))
        statements.append(f"CREATE PUBLICATION p{part} FOR TABLE {entries};\n")
        statements.append(f"CREATE SUBSCRIPTION s{part} CONNECTION '' PUBLICATION p{part};\n")
    return "".join(statements)


def condition_of(part: int) -> str:
    """Returns the keys of one of 32 parts."""
    low = part * 100
    high = low + 100
    if part == 0:
        return f"id < {high}"
    if part == 31:
        return f"id >= {low}"
    return f"id >= {low} AND id < {high}"


def largest_certificate() -> Iterator[Case]:
    """Yields a certificate of 1,000,000 nodes, and one of three more."""
    catalog = halves(" WHERE (id < 100)", " WHERE (id >= 100)")
    for splits, status, expected in (333_330, 0, ACCEPTED), (333_331, 3, "certificate 1 TooLarge\n"):
        certificate = f"s 0 s 1 {empty_tree(splits)}o 0 n 1 s 1 o 1 e 0 n 1 n 0"
        text = two_parts(catalog, certificate)
        yield Case(f"a tree of {splits} splits", ("check",), text, status, expected, LONG_SECONDS)


def last_nodes() -> Iterator[Case]:
    """Yields certificates in which the last of 1,000,000 nodes, or the last of 64 nested splits, has an owner that does
    not exist."""
    catalog = (
        "CREATE TABLE t (id integer, region text, PRIMARY KEY (id));\n"
        "CREATE PUBLICATION pa FOR TABLE t WHERE (id < 0 OR TRUE);\n"
        "CREATE SUBSCRIPTION s0 CONNECTION '' PUBLICATION pa;\n")
    large = f"s 0 {tree(166_666, 'o 0 ')}{tree(166_666, 'o 0 ')}"
    deep = "s 0 o 0 o 0 " * 64
    for beginning, node in (large, 999_999), (deep, 192):
        for owner, status, expected in (0, 0, ACCEPTED), (9, 1, f"refused BadIndex public.t {node}\n"):
            text = two_parts(catalog, f"{beginning}o {owner}\n")
            yield Case(f"owner {owner} in node {node}", ("check",), text, status, expected)


def empty_tree(splits: int) -> str:
    """Returns a tree of this many splits. Each of its leaves says that no row reaches it."""
    return tree(splits, "e 0 ")


def tree(splits: int, leaf: str) -> str:
    """Returns a tree of this many splits with this leaf."""
    nodes = []
    left = [splits]
    while left:
        here = left.pop()
        if here == 0:
            nodes.append(leaf)
            continue
        nodes.append("s 0 ")
        below = here - 1
        third = below // 3
        left += [third, third, below - 2 * third]
    return "".join(nodes)


def simulation_of_tables() -> Case:
    """Returns a simulation of 64 tables and 32 subscribers with two publications each, with names of 63 bytes. There is
    a row in each table; then all tables are truncated at once; and then some have a row for each remainder."""
    first = [(table, table) for table in range(64)]
    later = [(table, key) for table in range(0, 64, 8) for key in range(-31, 32)]
    opens = "".join(f"OPEN {number}; " for number in range(32))
    pumps = "".join(f"PUMP {number}; " for number in range(32))
    tables = ", ".join(long_name("t", table) for table in range(64))
    script = (
        f"COMMIT {inserts(first)}; {opens}{pumps}VIEW;\n"
        f"COMMIT TRUNCATE ({tables}); COMMIT {inserts(later)}; {pumps}VIEW;\n")
    lines = [
        "commit 1", *["opened"] * 32, *[f"at {end_of(1)}"] * 32, *view_of(1, lines_of(first), shards_of(first)),
        "commit 2", "commit 3", *[f"at {end_of(3)}"] * 32, *view_of(3, lines_of(later), shards_of(later)),
    ]
    text = three_parts(catalog_of_remainders(), f"{tree_of_remainders()}\n" * 64, script)
    return Case("simulate with 64 tables and 32 subscribers", ("simulate",), text, 0, text_of(lines))


def long_name(kind: str, number: int) -> str:
    """Returns a name of 63 bytes."""
    return f"{kind}{number:062}"


def catalog_of_remainders() -> str:
    """Returns 64 publications of all tables, each by a remainder, from -31 to 31. The first two have 0, and the two of
    each other subscriber have its number and minus its number."""
    statements = [f"CREATE TABLE {long_name('t', table)} (id integer PRIMARY KEY);\n" for table in range(64)]
    for subscriber in range(32):
        names = long_name("p", 2 * subscriber), long_name("p", 2 * subscriber + 1)
        for name, remainder in zip(names, (subscriber, -subscriber)):
            entries = ", ".join(f"{long_name('t', table)} WHERE (id % 32 = {remainder})" for table in range(64))
            statements.append(f"CREATE PUBLICATION {name} FOR TABLE {entries};\n")
        statements.append(
            f"CREATE SUBSCRIPTION {long_name('s', subscriber)} CONNECTION '' PUBLICATION {', '.join(names)};\n")
    return "".join(statements)


def tree_of_remainders() -> str:
    """Returns a certificate that tests one remainder after another, in the order of the publications. If the remainder
    is this one, it is no later one; and after the last test no value is left."""
    tree = "e 0"
    for atom in reversed(range(63)):
        found = f"o {(atom + 1) // 2}"
        for later in range(atom + 1, 63):
            found = f"s {later} e 0 {found} n {later}"
        tree = f"s {atom} {found} {tree} n {atom}"
    return tree


def inserts(rows: Rows) -> str:
    """Returns a command for each row."""
    return ", ".join(f"INSERT {long_name('t', table)} ({key})" for table, key in rows)


def lines_of(rows: Rows) -> list[str]:
    """Returns the lines of VIEW for rows, which are in order."""
    return [f"public.{long_name('t', table)} ({key})" for table, key in rows]


def shards_of(rows: Rows) -> dict[str, list[str]]:
    """Returns the rows of each subscriber."""
    return {
        long_name("s", number): lines_of([row for row in rows if abs(row[1]) % 32 == number]) for number in range(32)}


def simulation_of_columns() -> Case:
    """Returns a simulation of a table of 100 columns. A row of 98 of the longest texts and an empty one gets other
    texts, and another row is deleted. The message of the change contains both rows, and has 12.8 MB."""
    longest = [f"{number}".ljust(MAX_TEXT, "x") for number in range(98)]
    before, after, other = wide_row(1, [*longest, ""]), wide_row(1, ["", *longest]), wide_row(100, [""] * 99)
    script = (
        f"COMMIT INSERT t {before}, INSERT t {other}; OPEN 0; OPEN 1; PUMP 0; PUMP 1; VIEW;\n"
        f"COMMIT UPDATE t (1) {after}, DELETE t (100); PUMP 0; PUMP 1; VIEW;\n")
    old, new, gone = f"public.t {before}", f"public.t {after}", f"public.t {other}"
    lines = [
        "commit 1", "opened", "opened", *[f"at {end_of(1)}"] * 2, *view_of(1, [old, gone], {"s0": [old], "s1": [gone]}),
        "commit 2", *[f"at {end_of(2)}"] * 2, *view_of(2, [new], {"s0": [new], "s1": []}),
    ]
    texts = ", ".join(f"c{number} text" for number in range(99))
    catalog = halves(" WHERE (id < 100)", " WHERE (id >= 100)", texts)
    return Case("simulate with 100 columns", ("simulate",), three_parts(catalog, C, script), 0, text_of(lines))


def wide_row(key: int, texts: list[str]) -> str:
    """Returns a row of a number and texts that contain no quotes."""
    values = "', '".join(texts)
    return f"({key}, '{values}')"


def simulation_of_pieces() -> Case:
    """Returns a simulation in which a row of 98 of the longest texts is inserted, deleted and inserted again. The
    stream of these changes has 19 MB, and is delivered in one piece except for its last byte; then the connection is
    lost, and the next one delivers the last commit."""
    row = (1, *[f"{number}".ljust(MAX_TEXT, "y") for number in range(98)])
    columns = (Column("id", "integer", True), *(Column(f"c{number}", "text", False) for number in range(98)))
    table = Table("public", "t", columns, (0,))
    start = COPY_BOTH + relation_length(table)
    insert = BEGIN + change_length(table, None, row) + COMMIT
    delete = BEGIN + change_length(table, row, None) + COMMIT
    most = start + insert + delete + insert - 1
    text = wide_row(1, list(row[1:]))
    script = (
        f"COMMIT INSERT t {text}; COMMIT DELETE t (1); COMMIT INSERT t {text}; OPEN 0; HEAR 0 91; TAKE 0; TAKE 0; TAKE 0;\n"
        f"DELIVER 0 {most}; LOSE 0; OPEN 0; HEAR 0 92; TAKE 0; DELIVER 0 1000000000; VIEW;\n")
    lines = [
        "commit 1", "commit 2", "commit 3", "opened", "heard 91", "sent 1", "sent 2", "sent 3", f"delivered {most}",
        "lost", "opened", "heard 92", "sent 3", f"delivered {start + insert}", "log 3", f"public.t {text}",
        f"s0 {end_of(3)} 3 confirmed 0/0", f"s0 public.t {text}", "s1 0/0 0 confirmed 0/0",
    ]
    catalog = halves(LOW, HIGH, ", ".join(f"c{number} text" for number in range(98)))
    return Case("simulate with pieces of 19 MB", ("simulate",), three_parts(catalog, C, script), 0, text_of(lines))
