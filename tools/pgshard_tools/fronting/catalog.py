"""What the catalog of pgshard serve says about publications, tables and subscriptions, for subscribers that ask."""

from collections.abc import Iterator, Sequence
from dataclasses import dataclass, field, replace

from pgshard_tools.fronting.frames import BIGINT, BOOLEAN, INTEGER, SMALLINT, TEXT
from pgshard_tools.judging.catalog_tokens import statements_of, stored

# The types that pgshard reads.
TYPES = {
    "boolean": BOOLEAN, "bool": BOOLEAN, "smallint": SMALLINT, "int2": SMALLINT, "integer": INTEGER, "int": INTEGER,
    "int4": INTEGER, "bigint": BIGINT, "int8": BIGINT, "text": TEXT}

# The OID of the first table.
FIRST_OID = 16384

Name = tuple[str, str]


@dataclass(frozen=True)
class Table:
    """A table with the names and types of its columns, and those of its replica identity if an index has it."""

    oid: int
    schema: str
    name: str
    types: tuple[tuple[str, int], ...]
    key: frozenset[str]
    indexes: dict[str, frozenset[str]] = field(default_factory=dict)
    letter: str = "d"
    identity: frozenset[str] = frozenset()

    @property
    def columns(self) -> tuple[str, ...]:
        """The names of the columns."""
        return tuple(name for name, _ in self.types)


class Catalog:
    """The publications and subscriptions of a catalog text that pgshard reads, and its tables, by their names."""

    def __init__(self, catalog: str) -> None:
        self.tables: list[Table] = []
        self.publications: dict[str, list[Table]] = {}
        self.subscriptions: list[str] = []
        statements = list(statements_of(catalog))
        for statement in statements:
            self.take_table(statement)
        for statement in statements:
            if is_first(statement, "CREATE", "PUBLICATION"):
                self.publications[stored(statement[2])] = self.carried(statement[3:])
            elif is_first(statement, "CREATE", "SUBSCRIPTION"):
                self.subscriptions.append(stored(statement[2]))

    def take_table(self, statement: list[str]) -> None:
        """Adds what a statement says about a table."""
        if is_first(statement, "CREATE", "TABLE"):
            self.tables.append(table_of(statement[2:], FIRST_OID + len(self.tables)))
        elif is_first(statement, "CREATE", "UNIQUE", "INDEX"):
            tokens = without_only(statement[5:])
            columns = frozenset(stored(token) for token in tokens[tokens.index("(") + 1:-1] if token != ",")
            table = self.table(*name_of(tokens))
            self.put(table, replace(table, indexes=table.indexes | {stored(statement[3]): columns}))
        elif is_first(statement, "ALTER", "TABLE"):
            tokens = without_only(statement[2:])
            table = self.table(*name_of(tokens))
            self.put(table, with_identity(table, tokens))

    def put(self, before: Table, after: Table) -> None:
        """Replaces a table in the catalog."""
        self.tables[self.tables.index(before)] = after

    def table(self, schema: str, name: str) -> Table:
        """Returns the table with a name."""
        for table in self.tables:
            if (table.schema, table.name) == (schema, name):
                return table
        raise LookupError(name)

    def carried(self, tokens: list[str]) -> list[Table]:
        """The tables in the clause after a publication's name."""
        if is_first(tokens, "FOR", "ALL"):
            return self.tables
        schemas, names = objects_of(tokens[1:] if is_first(tokens, "FOR") else [])
        return [table for table in self.tables if table.schema in schemas or (table.schema, table.name) in names]

    def tables_of(self, publications: Sequence[str]) -> list[Table]:
        """The tables that some of these publications carry."""
        carried = {table.oid for name in publications for table in self.publications.get(name, [])}
        return [table for table in self.tables if table.oid in carried]


def is_first(tokens: Sequence[str], *words: str) -> bool:
    """Whether some tokens begin with these words."""
    return [token.upper() for token in tokens[:len(words)]] == list(words)


def without_only(tokens: list[str]) -> list[str]:
    """The tokens without ONLY, which has no effect."""
    return tokens[1:] if is_first(tokens, "ONLY") else tokens


def name_of(tokens: Sequence[str]) -> Name:
    """The schema and the name at the beginning of some tokens."""
    if tokens[1:2] == ["."]:
        return stored(tokens[0]), stored(tokens[2])
    return "public", stored(tokens[0])


def table_of(tokens: list[str], oid: int) -> Table:
    """The table of the tokens after CREATE TABLE."""
    types: list[tuple[str, int]] = []
    key: list[str] = []
    for element in elements_of(tokens[tokens.index("(") + 1:-1]):
        if is_first(element, "PRIMARY"):
            key += [stored(token) for token in element[3:-1] if token != ","]
            continue
        types.append((stored(element[0]), TYPES[element[1].lower()]))
        if "PRIMARY" in [token.upper() for token in element[2:]]:
            key.append(types[-1][0])
    return Table(oid, *name_of(tokens), tuple(types), frozenset(key), identity=frozenset(key))


def with_identity(table: Table, tokens: list[str]) -> Table:
    """A table whose replica identity the last words of ALTER TABLE name."""
    if is_first(tokens[-3:], "USING", "INDEX"):
        return replace(table, letter="i", identity=table.indexes[stored(tokens[-1])])
    letter = {"FULL": "f", "NOTHING": "n"}.get(tokens[-1].upper(), "d")
    return replace(table, letter=letter, identity=table.key if letter == "d" else frozenset())


def objects_of(tokens: list[str]) -> tuple[set[str], set[Name]]:
    """The schemas and the names of tables in a publication's list."""
    schemas: set[str] = set()
    names: set[Name] = set()
    is_schema = False
    for entry in elements_of(tokens):
        if is_first(entry, "TABLES", "IN", "SCHEMA"):
            entry, is_schema = entry[3:], True
        elif is_first(entry, "TABLE"):
            entry, is_schema = entry[1:], False
        if is_schema:
            schemas.add("public" if is_first(entry, "CURRENT_SCHEMA") else stored(entry[0]))
        else:
            names.add(name_of(without_only(entry)))
    return schemas, names


def elements_of(tokens: Sequence[str]) -> Iterator[list[str]]:
    """The elements of a list, separated by commas outside of parentheses, up to WITH."""
    element: list[str] = []
    depth = 0
    for token in tokens:
        depth += (token == "(") - (token == ")")
        if depth == 0 and token.upper() == "WITH":
            break
        if depth == 0 and token == ",":
            yield element
            element = []
        else:
            element.append(token)
    if element:
        yield element
