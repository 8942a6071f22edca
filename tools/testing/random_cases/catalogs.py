"""Random catalogs: some are sound by construction, some are slightly broken, and some are arbitrary."""

import random
from dataclasses import replace

from model.catalogs import NOTHING, OPERATIONS, Catalog, Filter, Publication, Subscription, Table

from .filters import FilterMaker, is_within
from .names import Names
from .splits import Splitter
from .tables import TableMaker

ALL = ("const", True)


class Sharding:
    """What each subscriber should get of each table: conditions, or all rows if they are None."""

    def __init__(self, chance: random.Random, tables: list[Table], subscribers: int) -> None:
        self.chance = chance
        self.tables = tables
        self.subscribers = subscribers
        self.parts: list[list[tuple[int, Filter | None]]] = [self.parts_of(table) for table in tables]

    def parts_of(self, table: Table) -> list[tuple[int, Filter | None]]:
        """Returns the owners of the parts of a table."""
        chance = self.chance
        if not table.identity_columns() or chance.random() < 0.15:
            return [(chance.randrange(self.subscribers), None)]
        splitter = Splitter(chance, table, table.identity_columns())
        for _ in range(10):
            most = 6 if chance.random() < 0.9 else 20
            conditions = splitter.conditions(chance.randint(1, min(2 * self.subscribers, most)))
            owners = [chance.randrange(self.subscribers) for _ in conditions]
            if is_within(conditions * 2):
                return list(zip(owners, conditions))
        return [(0, None)]

    def publications(self, names: Names, each: int) -> tuple[list[Publication], list[list[int]]]:
        """Returns publications, and which of them each subscriber takes: at most this many of its own."""
        found: list[Publication] = []
        taken: list[list[int]] = []
        for subscriber in range(self.subscribers):
            own = [{} for _ in range(self.chance.randint(1, each))]
            for table, parts in enumerate(self.parts):
                for condition in [it for owner, it in parts if owner == subscriber]:
                    self.place(own, table, condition)
            numbers = []
            for entries in own:
                numbers.append(len(found))
                found.append(Publication(names.name(), tuple(entries.items())))
            self.chance.shuffle(numbers)
            taken.append(numbers)
        return found, taken

    def place(self, own: list[dict[int, Filter | None]], table: int, condition: Filter | None) -> None:
        """Adds a condition to one of a subscriber's publications, and sometimes a narrower one to another."""
        entries = self.chance.choice(own)
        add_condition(entries, table, condition)
        other = self.chance.choice(own)
        if condition is not None and other is not entries and self.chance.random() < 0.2:
            add_condition(other, table, ("and", condition, ALL))


def add_condition(entries: dict[int, Filter | None], table: int, condition: Filter | None) -> None:
    """Adds a condition for the rows of a table, which may have none yet."""
    if condition is None or condition == ALL and table not in entries:
        entries[table] = None
    elif table not in entries:
        entries[table] = condition
    elif entries[table] is not None:
        entries[table] = ("or", entries[table], condition)


class CatalogMaker:
    """Generates catalogs."""

    def __init__(self, chance: random.Random, lines: bool = True) -> None:
        self.chance = chance
        self.special = chance.choice([0, 0, 0.1, 0.5])
        self.lines = lines

    def names(self) -> Names:
        """Returns a generator of names for one kind of object."""
        return Names(self.chance, self.special, self.lines)

    def sound(self, tables: int, subscribers: int, each: int) -> Catalog:
        """Returns a catalog with this many tables and subscribers. By construction, each row goes to one subscriber."""
        maker = TableMaker(self.chance, self.names)
        schemas = maker.add_schemas(2)
        made = [maker.table() for _ in range(tables)]
        sharding = Sharding(self.chance, made, subscribers)
        names = self.names()
        publications, taken = sharding.publications(names, each)
        return with_shortcuts(self.chance, self.finished(schemas, made, publications, taken))

    def finished(
            self, schemas: list[str], tables: list[Table], publications: list[Publication],
            taken: list[list[int]]) -> Catalog:
        """Returns the catalog, with subscriptions to these publications."""
        slots = self.names()
        subscriptions = tuple(Subscription(slots.name(), tuple(numbers)) for numbers in taken)
        return Catalog(tuple(tables), tuple(publications), subscriptions, tuple(schemas))

    def any(self, tables: int, publications: int, subscribers: int) -> Catalog:
        """Returns a catalog with random filters, in which a row may go to nobody or to several."""
        chance = self.chance
        maker = TableMaker(chance, self.names)
        schemas = maker.add_schemas(2)
        made = [maker.table(with_nothing=chance.random() < 0.2) for _ in range(tables)]
        names = self.names()
        found = [self.publication(names, ["public", *schemas], made) for _ in range(publications)]
        while not all(is_within(filters_on(found, number)) for number in range(tables)):
            found.pop()
        numbers = range(len(found))
        most = min(3, len(found))
        taken = [chance.sample(numbers, chance.randint(1, most)) for _ in range(subscribers if found else 0)]
        return self.finished(schemas, made, found, taken)

    def publication(self, names: Names, schemas: list[str], tables: list[Table]) -> Publication:
        """Returns a publication of some tables, with filters or whole."""
        chance = self.chance
        if chance.random() < 0.05:
            return Publication(names.name(), all_tables=True)
        entries = []
        for number in chance.sample(range(len(tables)), chance.randint(0, len(tables))):
            columns = tuple(range(len(tables[number].columns)))
            if tables[number].identity_columns() and chance.random() < 0.8:
                columns = tables[number].identity_columns()
            makes = FilterMaker(chance, tables[number], columns)
            entries.append((number, makes.any() if chance.random() < 0.85 else None))
        of_schema = (chance.choice(schemas),) if chance.random() < 0.05 else ()
        return Publication(names.name(), tuple(entries), of_schema, False, self.operations())

    def operations(self) -> frozenset[str]:
        """Returns all operations, or sometimes fewer."""
        if self.chance.random() < 0.93:
            return frozenset(OPERATIONS)
        return frozenset(it for it in OPERATIONS if self.chance.random() < 0.7)


def tables(chance: random.Random) -> int:
    """Returns how many tables a catalog has: mostly up to three."""
    fewest, most = chance.choices([(1, 3), (4, 12), (64, 64)], [960, 38, 2])[0]
    return chance.randint(fewest, most)


def filters_on(publications: list[Publication], table: int) -> list[Filter]:
    """Returns all filters of a table."""
    entries = [entry for publication in publications for entry in publication.entries]
    return [it for number, it in entries if number == table and it is not None]


def with_shortcuts(chance: random.Random, catalog: Catalog) -> Catalog:
    """Returns the catalog, in which a publication that carries all tables whole may be FOR ALL TABLES."""
    whole = tuple((number, None) for number in range(len(catalog.tables)))
    publications = list(catalog.publications)
    for number, it in enumerate(publications):
        if len(it.entries) == len(whole) and set(it.entries) == set(whole) and chance.random() < 0.7:
            publications[number] = replace(it, entries=(), all_tables=True)
            continue
        for schema in dict.fromkeys(table.schema for table in catalog.tables):
            of_schema = {(at, None) for at, table in enumerate(catalog.tables) if table.schema == schema}
            if of_schema <= set(it.entries) and chance.random() < 0.3:
                left = tuple(entry for entry in it.entries if entry not in of_schema)
                it = replace(it, entries=left, schemas=(*it.schemas, schema))
        publications[number] = it
    return replace(catalog, publications=tuple(publications))


def broken(chance: random.Random, catalog: Catalog) -> Catalog:
    """Returns the catalog with one thing left out or changed."""
    publications = list(catalog.publications)
    at = chance.randrange(len(publications))
    it = publications[at]
    match chance.randrange(6):
        case 0 if it.entries:
            number = chance.randrange(len(it.entries))
            it = replace(it, entries=it.entries[:number] + it.entries[number + 1:])
        case 1 if it.entries:
            number, filter = it.entries[0]
            it = replace(it, entries=((number, ALL if filter is None else ("not", filter)), *it.entries[1:]))
        case 2 | 3 if it.entries:
            number, filter = it.entries[-1]
            it = replace(it, entries=(*it.entries[:-1], (number, chance.choice([None, ("or", filter or ALL, ALL)]))))
        case 4:
            left_out = chance.choice(OPERATIONS)
            it = replace(it, operations=it.operations - {left_out})
        case _ if catalog.tables:
            number = chance.randrange(len(catalog.tables))
            tables = list(catalog.tables)
            tables[number] = replace(tables[number], identity=chance.choice([NOTHING, "DEFAULT"]))
            return replace(catalog, tables=tuple(tables))
    publications[at] = it
    return replace(catalog, publications=tuple(publications))
