"""Catalogs and scripts at the limits of what is read."""

from collections.abc import Iterator

from .table import NEW, Call

TABLE = "CREATE TABLE t (id integer PRIMARY KEY, region text);\\n"

TABLES = (
    "CREATE SCHEMA s;\\nCREATE TABLE t (id integer PRIMARY KEY, region text);\\n"
    "CREATE TABLE s.u (id integer PRIMARY KEY);\\n")

FILTER = "CREATE PUBLICATION p FOR TABLE t WHERE ("

TEXT = 65_535


def strings() -> Iterator[Call]:
    """Checks the limit of subscriptions' strings, here strings that contain a quote."""
    begin = "catalog.read CREATE PUBLICATION p;CREATE SUBSCRIPTION s CONNECTION '"
    yield Call(f"{begin}{(TEXT - 1) * 'a'}''' PUBLICATION p;", "ok")
    yield Call(f"{begin}{TEXT * 'a'}''' PUBLICATION p;", "TooMany(LiteralBytes) 54")


def counts() -> Iterator[Call]:
    """Checks the greatest number of tables, columns, publications and subscriptions, and one more of each."""
    tables = ";\\n".join(f"CREATE TABLE t{number} (id integer PRIMARY KEY)" for number in range(64))
    yield Call(f"catalog.read {tables};", "ok")
    yield Call(f"catalog.read {tables};\\nCREATE TABLE u (id integer PRIMARY KEY);", "TooMany(Tables) 2755")
    columns = "CREATE TABLE t (" + ", ".join(f"c{number} integer" for number in range(99))
    yield Call(f"catalog.read {columns}, id integer PRIMARY KEY);", "ok")
    yield Call(f"catalog.read {columns}, id integer PRIMARY KEY, x text);", "TooMany(Columns) 1317")
    publications = TABLE + ";".join(f"CREATE PUBLICATION p{number} FOR TABLE t" for number in range(64))
    yield Call(f"catalog.read {publications};", "ok")
    yield Call(f"catalog.read {publications};CREATE PUBLICATION q FOR TABLE t;", "TooMany(Publications) 2303")
    subscriptions = "CREATE PUBLICATION p;" + ";".join(
        f"CREATE SUBSCRIPTION s{number} CONNECTION '' PUBLICATION p" for number in range(32))
    yield Call(f"catalog.read {subscriptions};", "ok")
    one_more = "CREATE SUBSCRIPTION t CONNECTION '' PUBLICATION p;"
    yield Call(f"catalog.read {subscriptions};{one_more}", "TooMany(Subscriptions) 1695")


def parts() -> Iterator[Call]:
    """Checks filters with the greatest number of atoms and nodes, and one more; and the deepest filter, and a deeper
    one."""
    atoms = " OR ".join(f"id = {number}" for number in range(64))
    for before, after, answer in [
            ("", "", "ok"), ("", " OR id = 1", "ok"), ("", " OR id = 64", "TooMany(Atoms) 147"),
            ("id = 100), s.u WHERE (", "", "ok"), ("id = 100), t WHERE (", "", "TooMany(Atoms) 167")]:
        yield Call(f"catalog.read {TABLES}{FILTER}{before}{atoms}{after});", answer)
    nodes = 499 * " AND id = 1"
    for before, answer in [("NOT id = 0", "ok"), ("NOT NOT id = 0", "TooMany(Nodes) 147")]:
        yield Call(f"catalog.read {TABLES}{FILTER}{before}{nodes});", answer)
    for filter, answer in [("id < 5", "ok"), ("NOT id < 5", "TooDeep 218")]:
        yield Call(f"catalog.read {TABLES}{FILTER}{64 * '('}{filter}{64 * ')'});", answer)


def name(letter: str, number: int) -> str:
    """Returns a name of 63 bytes."""
    return f"{60 * letter}{number:03}"


def table(number: int) -> str:
    """Returns a table of 100 columns, all of them in its key and in each of its 8 indexes, the last of which is its
    replica identity."""
    columns = [name("c", column) for column in range(2, 100)]
    declared = ", ".join(f"{column} boolean NOT NULL" for column in columns)
    key = ", ".join(["id", "region", *columns])
    called = f"{name('s', number)}.{name('t', number)}"
    indexes = "".join(f"CREATE UNIQUE INDEX {name('i', index)} ON {called} ({key});\\n" for index in range(8))
    return (
        f"CREATE TABLE {called} (id integer, region text, {declared}, PRIMARY KEY ({key}));\\n{indexes}"
        f"ALTER TABLE {called} REPLICA IDENTITY USING INDEX {name('i', 7)};\\n")


def filter_of(publication: int, number: int) -> str:
    """Returns a filter for a publication and a table. The filter of the last publication on the first table contains a
    text of 65,535 bytes, and those on the last table together have 64 atoms and 1,000 nodes."""
    if (publication, number) == (63, 0):
        return f"region = '{TEXT * 'a'}'"
    if (publication, number) == (2, 63):
        return f"id = 101 OR id = 102{468 * ' OR id = 100'}"
    return f"id = {publication}"


def publication(number: int) -> str:
    """Returns a publication that names each table with a filter."""
    tables = ", ".join(
        f"{name('s', table)}.{name('t', table)} WHERE ({filter_of(number, table)})" for table in range(64))
    return f"CREATE PUBLICATION {name('p', number)} FOR TABLE {tables};\\n"


def largest() -> str:
    """Returns a catalog of 64 schemas with a table each, a publication of all tables and one of all schemas, 62
    publications that name each table with a filter, and 32 subscriptions to all publications. A comment before them
    makes it 16 MB long."""
    schemas = [name("s", number) for number in range(64)]
    every = ", ".join(name("p", number) for number in range(64))
    return "".join([
        f"--{15_000_000 * ' '}\\n", *(f"CREATE SCHEMA {schema};\\n" for schema in schemas),
        f"CREATE PUBLICATION {name('p', 0)} FOR ALL TABLES;\\n",
        f"CREATE PUBLICATION {name('p', 1)} FOR TABLES IN SCHEMA {', '.join(schemas)};\\n",
        *map(table, range(64)), *map(publication, range(2, 64)),
        *(f"CREATE SUBSCRIPTION {name('u', number)} CONNECTION '{TEXT * 'h'}' PUBLICATION {every};\\n"
          for number in range(32))])


def shown() -> str:
    """Returns what is shown of the largest catalog."""
    tables = [f"{name('s', number)}.{name('t', number)}" for number in range(64)]
    whole = " ".join(map(str, range(64)))
    filtered = " ".join(f"{number}?" for number in range(64))
    publications = [f"| {name('p', number)} iudt {whole if number < 2 else filtered}" for number in range(64)]
    subscriptions = [f"> {name('u', number)} {whole}" for number in range(32)]
    return " ".join([*tables, *publications, *subscriptions])


def shown_table(number: int) -> str:
    """Returns what is shown of a table of the largest catalog."""
    columns = " ".join(["id Integer! region Text!", *(f"{name('c', column)} Boolean!" for column in range(2, 100))])
    every = " ".join(map(str, range(100)))
    indexes = "; ".join(f"{name('i', index)} {every}" for index in range(8))
    return f"{name('s', number)}.{name('t', number)} {columns} key {every} Index(7); {indexes}"


def largest_catalog() -> Iterator[Call]:
    """Checks the largest catalog."""
    yield Call(f"catalog.read {largest()}", "ok")
    yield Call("catalog.show", shown())
    for number in range(64):
        yield Call(f"table.show {number}", shown_table(number))


def scripts() -> Iterator[Call]:
    """Checks a row of 100 values, one of them the longest text, as a key and as a row; and a script of 100,000 steps,
    and of one more."""
    yield Call("catalog.read CREATE TABLE t (id integer PRIMARY KEY);", "ok")
    numbers = ", ".join(f"-{number}" for number in range(1, 97))
    row = f"('{TEXT * 'a'}', {numbers}, NULL, TRUE, '')"
    yield Call(f"script.read COMMIT UPDATE t {row} {row};", f"0 COMMIT UPDATE 0 {row} {row}")
    steps = 100_000 * "VIEW;"
    yield Call(f"script.read {steps}", "; ".join(f"{5 * number} VIEW" for number in range(100_000)))
    for end, answer in [
            (" view;", "TooMany(Steps) 500001"), ("COMMIT $", "TooMany(Steps) 500000"), (";", "Expected 500000"),
            ("$", "BadToken 500000")]:
        yield Call(f"script.read {steps}{end}", answer)
    words = "COMMIT, OPEN, HEAR, TAKE, KEEP, DELIVER, REPORT, LOSE, PUMP or VIEW"
    yield Call(f"script.message {steps};", f"expected {words}, at byte 500000")


def calls() -> Iterator[Call]:
    """The calls of this topic."""
    for part in [strings, counts, parts, largest_catalog, scripts]:
        yield from part()
        yield NEW
