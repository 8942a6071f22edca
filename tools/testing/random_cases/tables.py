"""Random tables."""

import random
from collections.abc import Callable

from model.catalogs import DEFAULT, FULL, NOTHING, Column, Index, Table

from .names import Names

KINDS = ["smallint", "integer", "bigint", "boolean", "text"]


class TableMaker:
    """Generates tables for one catalog."""

    def __init__(self, chance: random.Random, new_names: Callable[[], Names]) -> None:
        self.chance = chance
        self.new_names = new_names
        self.schemas = new_names()
        self.schemas.given.add("public")
        self.names = {"public": new_names()}

    def add_schemas(self, most: int) -> list[str]:
        """Creates some schemas."""
        found = [self.schemas.name() for _ in range(self.chance.randint(0, most))]
        self.names |= {name: self.new_names() for name in found}
        return found

    def table(self, with_nothing: bool = False) -> Table:
        """Returns a table in one of the schemas. Its identity may be NOTHING if that is allowed."""
        chance = self.chance
        schema = chance.choice(list(self.names))
        fewest, most = chance.choices([(1, 5), (6, 20), (100, 100)], [960, 35, 5])[0]
        columns = self.columns(chance.randint(fewest, most))
        key = tuple(chance.sample(range(len(columns)), chance.choice([1, 1, 1, min(2, len(columns)), len(columns)])))
        indexes = self.indexes(schema, columns)
        identities: list[str | int] = [FULL, FULL, DEFAULT]
        identities += [
            number for number, index in enumerate(indexes)
            if all(columns[at].not_null or at in key for at in index.columns)] * 3
        if with_nothing:
            identities.append(NOTHING)
        return Table(schema, self.names[schema].name(), columns, key, indexes, chance.choice(identities))

    def columns(self, number: int) -> tuple[Column, ...]:
        """Returns this many columns. Some types are more frequent than others."""
        names = self.new_names()
        return tuple(
            Column(names.name(), self.chance.choice([*KINDS, "integer", "text"]), self.chance.random() < 0.3)
            for _ in range(number))

    def indexes(self, schema: str, columns: tuple[Column, ...]) -> tuple[Index, ...]:
        """Returns some unique indexes."""
        found = []
        for _ in range(self.chance.choice([0, 0, 0, 1, 1, 2])):
            of = self.chance.sample(range(len(columns)), self.chance.randint(1, min(2, len(columns))))
            found.append(Index(self.names[schema].name(), tuple(of)))
        return tuple(found)
