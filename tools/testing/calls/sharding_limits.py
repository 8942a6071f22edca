"""Plans, changes, certificates, checks and made certificates, at the limits of catalogs and certificates."""

from collections.abc import Iterator

from .table import NEW, Call

TEXT = 65_535

ALL = "insert, update, delete, truncate"


def plans() -> Iterator[Call]:
    """Checks 64 tables of 100 columns, of which the first has them all as its key; 64 publications, each of all tables
    with a filter; and 32 subscriptions, each to all publications."""
    columns = ", ".join(f"c{column} integer" for column in range(100))
    keys = [", ".join(f"c{column}" for column in range(100)), *(63 * ["c0"])]
    tables = "".join(f"CREATE TABLE t{number} ({columns}, PRIMARY KEY ({key}));\\n" for number, key in enumerate(keys))
    publications = "".join(
        f"CREATE PUBLICATION p{number} FOR TABLE "
        + ", ".join(f"t{table} WHERE (c0 = {number})" for table in range(64)) + ";\\n" for number in range(64))
    every = ", ".join(f"p{number}" for number in range(64))
    subscriptions = "".join(
        f"CREATE SUBSCRIPTION s{number} CONNECTION '' PUBLICATION {every};\\n" for number in range(32))
    yield Call(
        f"catalog.read {tables}ALTER TABLE t63 REPLICA IDENTITY FULL;\\n{publications}{subscriptions}", "ok")
    yield Call("plan.new", "ok")
    for row, is_taken in [("(0)", True), ("(63)", True), ("(64)", False), ("(NULL)", False)]:
        answer = " ".join(["taken by", *map(str, range(32 if is_taken else 0))])
        for table in range(64):
            yield Call(f"plan.takers 33 {table} {row}", answer)
        yield Call(f"plan.takers 33 64 {row}", "taken by")
    every_column = f"[{', '.join(map(str, range(100)))}] true {' '.join(map(str, range(100)))}"
    for table, answer in [(0, every_column), (1, "[0] true 0"), (63, every_column)]:
        yield Call(f"table.identity {table}", answer)


def recorded() -> Iterator[Call]:
    """Checks what is logged of a row of 100 columns under each identity. The first column has one of the longest texts,
    and the last one changes."""
    columns = [f"c{column}" for column in range(100)]
    declared = ", ".join(f"{column} text NOT NULL" for column in columns)
    table = f"CREATE TABLE t ({declared}, PRIMARY KEY ({', '.join(columns)}));CREATE UNIQUE INDEX i ON t (c99, c0);"
    old, new, ends = (
        f"('{TEXT * 'a'}', {98 * f'{filling}, '}'{last}')" for filling, last in [("7", ""), ("7", "b"), ("NULL", "")])
    for identity, part in [("DEFAULT", f"key {old}"), ("USING INDEX i", f"key {ends}"), ("FULL", f"row {old}")]:
        yield Call(f"catalog.read {table}ALTER TABLE t REPLICA IDENTITY {identity};", "ok")
        yield Call(f"change.old {old}", "ok")
        yield Call(f"change.update 0 {new}", f"UPDATE 0 {part} to {new}")
        yield Call("change.copy", f"UPDATE 0 {part} to {new}")
    tables = list(range(64))
    yield Call("change.truncate " + " ".join(map(str, tables)), f"TRUNCATE {tables}")
    yield Call("change.copy", f"TRUNCATE {tables}")


def keys() -> Iterator[Call]:
    """Checks a key of 100 columns, in reverse order: one of the longest texts, and the numbers from 98 to 0."""
    declared = ", ".join(f"c{column} integer" for column in range(100))
    key = ", ".join(f"c{column}" for column in reversed(range(100)))
    yield Call(f"catalog.read CREATE TABLE t ({declared}, PRIMARY KEY ({key}));", "ok")
    numbers = ", ".join(map(str, range(99)))
    others = ", ".join(map(str, reversed(range(99))))
    yield Call(f"table.key 0 ({numbers}, '{TEXT * 'a'}')", f"('{TEXT * 'a'}', {others})")


def even(splits: int, leaf: str) -> str:
    """Returns a certificate of this many splits by atom 0, as balanced as possible: one node, and three for each
    split."""
    if splits == 0:
        return leaf
    first, second = (splits - 1) // 3, splits // 3
    branches = [even(first, leaf), even(second, leaf), even(splits - 1 - first - second, leaf)]
    return " ".join(["s 0", *branches])


def certificates() -> Iterator[Call]:
    """Reads and writes a million nodes. Too many nodes are reported before too many splits on a path."""
    text = even(333_333, "e 0")
    yield Call(f"certificate.read {text}", text)
    yield Call(f"certificate.limits {text}", "true")
    yield Call(f"certificate.finish {text}", "Ok(()), Ok(None)")
    crowded = f"{even(333_311, 'e 0')} s 0 e 0 {62 * 's 0 '}s"
    yield Call(f"certificate.read s 0 {crowded}", "TooDeep")
    yield Call(f"certificate.read s 0 e 0 {crowded}", "TooLarge")


def large_filter() -> str:
    """Returns a filter of 1,000 nodes that is true for each row: 499 atoms, 64 of them different, or NOT FALSE. They
    are `id < 0` and `IS NULL` of the last 63 columns."""
    atoms = ("id < 0" if place % 64 == 0 else f"c{36 + place % 64} IS NULL" for place in range(499))
    return " OR ".join(["NOT FALSE", *atoms])


def tables(last: str, publishes: str) -> str:
    """Returns 64 tables of 100 columns, each with a publication. The last table has this replica identity, and its
    publication publishes these operations."""
    columns = ", ".join(["id integer PRIMARY KEY", *(f"c{number} text" for number in range(1, 100))])
    text = ""
    for number in range(64):
        identity, operations = (last, publishes) if number == 63 else ("FULL", ALL)
        text += (
            f"CREATE TABLE t{number} ({columns});ALTER TABLE t{number} REPLICA IDENTITY {identity};\\n"
            f"CREATE PUBLICATION p{number} FOR TABLE t{number} WHERE ({large_filter()}) "
            f"WITH (publish = '{operations}');\\n")
    return text


def catalog(last: str, publishes: str) -> str:
    """Returns these tables with 32 subscriptions, each to two of the publications."""
    return tables(last, publishes) + "".join(
        f"CREATE SUBSCRIPTION s{number} CONNECTION '' PUBLICATION p{number}, p{number + 32};\\n"
        for number in range(32))


def checks() -> Iterator[Call]:
    """Checks that a catalog at the limits is accepted, and that it is refused for a fault of its last objects."""
    owners = [f"o {number % 32}" for number in range(64)]
    yield Call(f"catalog.read {catalog('FULL', ALL)}", "ok")
    yield Call(f"check.certificates {';'.join(owners)}", "ok")
    yield Call("check.accepted 0 63", "64 nothing 32")
    yield Call("check.accepted 31 63", "64 where 32")
    yield Call("plan.new", "ok")
    terms = [f"Col({column})" for column in [0, *range(37, 100)]]
    yield Call("check.terms 63", f"32 [{', '.join(terms)}] {' '.join(terms)}")
    for identity, publishes, owner, answer in [
            ("FULL", "insert, update, delete", "o 31", "PublishMissing { publication: 63, operation: Truncate }"),
            ("NOTHING", ALL, "o 31", "NoIdentity { table: 63 }"),
            ("DEFAULT", ALL, "o 31", "NotCovered { publication: 63, table: 63, column: 37 }"),
            ("FULL", ALL, "o 0", "NotOwner { table: 63, node: 0 }")]:
        yield Call(f"catalog.read {catalog(identity, publishes)}", "ok")
        yield Call(f"check.certificates {';'.join([*owners[:63], owner])}", answer)


def nodes() -> Iterator[Call]:
    """Checks that each node of a certificate at the limits is examined: the last of a million, and one after 64 splits
    on a path."""
    yield Call(
        "catalog.read CREATE TABLE t (id integer PRIMARY KEY);"
        "CREATE PUBLICATION p FOR TABLE t WHERE (id < 0 OR TRUE);"
        "CREATE SUBSCRIPTION s CONNECTION '' PUBLICATION p;", "ok")
    yield Call("plan.new", "ok")
    half = even(166_666, "o 0")
    for beginning, node in [(f"s 0 {half} {half}", 999_999), ((64 * "s 0 o 0 o 0 ").rstrip(), 192)]:
        yield Call(f"check.one 0 {beginning} o 0", "ok")
        yield Call(f"check.one 0 {beginning} o 1", f"BadIndex {{ table: 0, node: {node} }}")


def shares() -> Iterator[Call]:
    """Checks that the last of 32 shares and the last of 100 columns are examined."""
    publication = "CREATE PUBLICATION q FOR TABLE t0 WHERE (NOT c99 IS NULL);CREATE PUBLICATION none;"
    named = ["p0", *(30 * ["none"]), "q"]
    subscriptions = "".join(
        f"CREATE SUBSCRIPTION s{number} CONNECTION '' PUBLICATION {name};" for number, name in enumerate(named))
    # The filters of a table have at most 1,000 nodes together.
    first, _, _ = large_filter().rpartition(" OR ")
    text = tables("FULL", ALL).split("CREATE TABLE t1 ")[0].replace(large_filter(), first)
    yield Call(f"catalog.read {text}{publication}{subscriptions}", "ok")
    yield Call("plan.new", "ok")
    yield Call("check.one 0 o 0", "SecondOwner { table: 0, node: 0, subscriber: 31 }")


def made() -> Iterator[Call]:
    """Makes certificates for a table of 100 columns and 64 atoms whose remainders by 32 each have their own subscriber,
    and for 64 tables that each have one owner of 32."""
    columns = ", ".join(["id integer PRIMARY KEY", *(f"c{number} integer" for number in range(1, 100))])
    for of_first, sort in [("c99 IS NOT NULL", "certificate"), ("FALSE", "counterexample")]:
        filters = [f"id % 32 = 0 AND (c99 IS NULL OR {of_first})"]
        filters += [f"id % 32 = {number} OR id % 32 = -{number}" for number in range(1, 32)]
        published = "".join(
            f"CREATE PUBLICATION p{number} FOR TABLE t WHERE ({filter});"
            f"CREATE SUBSCRIPTION s{number} CONNECTION '' PUBLICATION p{number};"
            for number, filter in enumerate(filters))
        yield Call(f"catalog.read CREATE TABLE t ({columns}); ALTER TABLE t REPLICA IDENTITY FULL;{published}", "ok")
        yield Call("plan.new", "ok")
        yield Call("make.sort 0", sort)
    text = "".join(f"CREATE TABLE t{number} (id integer PRIMARY KEY);" for number in range(64)) + "".join(
        f"CREATE PUBLICATION p{number} FOR TABLE t{number}, t{number + 32};"
        f"CREATE SUBSCRIPTION s{number} CONNECTION '' PUBLICATION p{number};" for number in range(32))
    yield Call(f"catalog.read {text}", "ok")
    yield Call("plan.new", "ok")
    for number in range(64):
        yield Call(f"make.owner {number}", str(number % 32))
    yield Call("make.sort 64", "unknown")


def calls() -> Iterator[Call]:
    """The calls of this topic."""
    for part in [plans, recorded, keys, certificates, checks, nodes, shares, made]:
        yield from part()
        yield NEW
