"""Catalogs as text."""

import random

from model.catalogs import DEFAULT, OPERATIONS, Catalog, Publication, Subscription, Table
from model.values import written

from .filter_texts import FilterText
from .names import spelled
from .texts import Exact, commas, joined

KINDS = {
    "smallint": ["smallint", "int2"], "integer": ["integer", "int", "int4"], "bigint": ["bigint", "int8"],
    "boolean": ["boolean", "bool"], "text": ["text"],
}


class CatalogText:
    """Prints a catalog."""

    def __init__(self, catalog: Catalog, chance: random.Random, noise: bool) -> None:
        self.catalog = catalog
        self.chance = chance
        self.noise = noise

    def text(self) -> str:
        """Returns the catalog's text. Its last line has a newline."""
        return "".join(joined(it, self.chance, self.noise) + "\n" for it in self.statements())

    def statements(self) -> list[list[str]]:
        """Returns the tokens of each statement."""
        found = [["CREATE", "SCHEMA", self.name(schema)] for schema in self.catalog.schemas]
        for table in self.catalog.tables:
            found += self.of_table(table)
        found += [self.of_publication(it) for it in self.catalog.publications]
        found += [self.of_subscription(it) for it in self.catalog.subscriptions]
        return [[*it, ";"] for it in found]

    def name(self, name: str) -> Exact:
        """Returns a name as it is written in a text."""
        return Exact(spelled(name, self.chance))

    def table_name(self, table: Table) -> list[str]:
        """Returns a table's name, with its schema if necessary."""
        if table.schema == "public" and self.chance.random() < 0.7:
            return [self.name(table.name)]
        return [self.name(table.schema), ".", self.name(table.name)]

    def of_table(self, table: Table) -> list[list[str]]:
        """Returns the statements for a table, its indexes and its identity."""
        named = self.table_name(table)
        elements = [self.column(table, number) for number in range(len(table.columns))]
        if not self.has_own_key(table):
            elements.append(["PRIMARY", "KEY", "(", *self.columns(table, table.key), ")"])
        statements = [["CREATE", "TABLE", *named, "(", *commas(elements), ")"]]
        for index in table.indexes:
            method = ["USING", "btree"] if self.chance.random() < 0.2 else []
            columns = ["(", *self.columns(table, index.columns), ")"]
            statements.append(["CREATE", "UNIQUE", "INDEX", self.name(index.name), "ON", *named, *method, *columns])
        if table.identity != DEFAULT or self.chance.random() < 0.2:
            statements.append(["ALTER", "TABLE", *self.only(), *named, "REPLICA", "IDENTITY", *self.identity(table)])
        return statements

    def has_own_key(self, table: Table) -> bool:
        """Returns whether the key is declared with its only column. Both functions that print parts of the table have
        to agree on this."""
        return len(table.key) == 1 and len(table.name) % 2 == 1

    def column(self, table: Table, number: int) -> list[str]:
        """Returns a column."""
        column = table.columns[number]
        found = [self.name(column.name), self.chance.choice(KINDS[column.kind])]
        constraints = [["NOT", "NULL"]] if column.not_null else []
        if number in table.key and self.has_own_key(table):
            constraints.append(["PRIMARY", "KEY"])
        self.chance.shuffle(constraints)
        return [*found, *(word for constraint in constraints for word in constraint)]

    def columns(self, table: Table, numbers: tuple[int, ...]) -> list[str]:
        """Returns the columns with these numbers."""
        return commas([[self.name(table.columns[number].name)] for number in numbers])

    def only(self) -> list[str]:
        """Sometimes returns ONLY, which changes nothing."""
        return ["ONLY"] if self.chance.random() < 0.1 else []

    def identity(self, table: Table) -> list[str]:
        """Returns a replica identity."""
        if isinstance(table.identity, str):
            return [table.identity]
        return ["USING", "INDEX", self.name(table.indexes[table.identity].name)]

    def of_publication(self, it: Publication) -> list[str]:
        """Returns a publication."""
        objects = [self.entry(number, filter) for number, filter in it.entries]
        objects += [["TABLES", "IN", "SCHEMA", self.name(schema)] for schema in it.schemas]
        tables = ["FOR", *commas(objects)] if objects else []
        if it.all_tables:
            tables = ["FOR", "ALL", "TABLES"]
        return ["CREATE", "PUBLICATION", self.name(it.name), *tables, *self.parameters(it)]

    def entry(self, number: int, filter: tuple | None) -> list[str]:
        """Returns a table of a publication."""
        table = self.catalog.tables[number]
        star = ["*"] if self.chance.random() < 0.1 else []
        found = ["TABLE", *self.only(), *self.table_name(table), *star]
        if filter is None:
            return found
        return [*found, "WHERE", "(", *FilterText(table, self.chance).tokens(filter), ")"]

    def parameters(self, it: Publication) -> list[str]:
        """Returns what a publication publishes if it does not publish everything, and sometimes if it does."""
        if len(it.operations) == len(OPERATIONS) and self.chance.random() < 0.8:
            return []
        words = ", ".join(sorted(it.operations))
        return ["WITH", "(", "publish", "=", Exact(written(words)), ")"]

    def of_subscription(self, it: Subscription) -> list[str]:
        """Returns a subscription."""
        taken = commas([[self.name(self.catalog.publications[number].name)] for number in it.publications])
        return ["CREATE", "SUBSCRIPTION", self.name(it.name), "CONNECTION", Exact("'host=here'"), "PUBLICATION", *taken]
