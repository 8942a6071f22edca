"""Random trees of partitions and of inheritance, with publications of their parts."""

import random
from dataclasses import dataclass, field

from . import kinds_numbers, kinds_others, kinds_texts, kinds_times
from .conditions import Column, Conditions, Takes
from .designs import NUMBER, OPERATIONS, SUBSCRIBERS, Design, Publication, declared
from .plans import filters_of

KINDS = {it.name: it for it in (*kinds_numbers.KINDS, *kinds_texts.KINDS, *kinds_times.KINDS, *kinds_others.KINDS)}
COLUMNS = ("int4", "text", "date", "bool", "int8", "char3", "uuid", "text_icu", "numeric", "timestamp", "text_c")
COLLATIONS = ("caseless", '"C"', '"en-x-icu"')
MOST_DEPTH = 3
# How a partition stores its rows: as a plain table does, unlogged, in another table, or as a table that is attached.
WAYS = {"plain": 10, "unlogged": 1, "foreign": 1, "attached": 3}


@dataclass
class Node:
    """A table of a tree."""

    name: str
    children: list["Node"] = field(default_factory=list)
    way: str = "plain"

    def all(self) -> list["Node"]:
        """Returns the table and all below it."""
        return [self, *(it for child in self.children for it in child.all())]


class Topologies:
    """Generates random trees."""

    def __init__(self, chance: random.Random, takes: Takes) -> None:
        self.chance = chance
        self.conditions = Conditions(chance, takes)

    def design(self, name: str) -> Design:
        """Returns a tree with publications."""
        names = self.chance.sample(COLUMNS, self.chance.choice((2, 3)))
        columns = [Column(f"c{place}", KINDS[it], self.chance.random() < 0.4) for place, it in enumerate(names)]
        design = Design(name, columns, [f"CREATE SCHEMA {name}_more"])
        if self.chance.random() < 0.15:
            root = self.inheritance(design)
        else:
            root = self.partitions(design)
        design.targets = [design.table] * 3 + [it.name for it in root.all() if not it.children]
        design.setup += [it for node in root.all() for it in self.identity(node)]
        design.publications = self.publications(design, root)
        return design

    def inheritance(self, design: Design) -> Node:
        """Returns a table and others that inherit from it."""
        root = Node(design.table)
        listed = ", ".join([*map(declared, design.columns), f"{NUMBER} bigint"])
        design.setup.append(f"CREATE TABLE {root.name} ({listed})")
        for place in range(self.chance.choice((1, 2))):
            child = Node(f"{design.name}.child{place}")
            check = f"CHECK ({self.conditions.condition(design.columns)})" if self.chance.random() < 0.4 else ""
            design.setup.append(f"CREATE TABLE {child.name} ({check}) INHERITS ({root.name})")
            root.children.append(child)
        # The parent has rows of its own.
        return root

    def partitions(self, design: Design) -> Node:
        """Returns a partitioned table with all its parts."""
        root = Node(design.table)
        listed = ", ".join([*map(declared, design.columns), f"{NUMBER} bigint"])
        key, strategy = self.key(design)
        by = f"{strategy} ({key.name}{self.collation(key)})"
        design.setup.append(f"CREATE TABLE {root.name} ({listed}) PARTITION BY {by}")
        self.fill(design, root, key, strategy, 1)
        return root

    def key(self, design: Design) -> tuple[Column, str]:
        """Returns the column by which a table is partitioned, and the strategy."""
        return self.chance.choice(design.columns), self.chance.choice(("LIST", "RANGE", "RANGE", "HASH"))

    def collation(self, key: Column) -> str:
        """Sometimes returns a collation other than the column's."""
        if "text" not in key.kind.name or self.chance.random() < 0.7:
            return ""
        return f" COLLATE {self.chance.choice(COLLATIONS)}"

    def fill(self, design: Design, node: Node, key: Column, strategy: str, depth: int) -> None:
        """Gives a partitioned table its partitions."""
        for place, bounds in enumerate(self.bounds(key, strategy)):
            schema = design.name if self.chance.random() < 0.8 else f"{design.name}_more"
            child = Node(f"{schema}.{node.name.rpartition('.')[2]}_{place}")
            node.children.append(child)
            if depth < MOST_DEPTH and self.chance.random() < 0.25:
                below, way = self.key(design)
                design.setup.append(
                    f"CREATE TABLE {child.name} PARTITION OF {node.name} {bounds} PARTITION BY {way} ({below.name})")
                self.fill(design, child, below, way, depth + 1)
            else:
                child.way = self.chance.choices(list(WAYS), list(WAYS.values()))[0]
                design.setup += self.leaf(design, node, child, bounds)

    def bounds(self, key: Column, strategy: str) -> list[str]:
        """Returns the bounds of some partitions. If the server refuses them, another tree is generated."""
        if strategy == "HASH":
            count = self.chance.choice((2, 3))
            return [f"FOR VALUES WITH (MODULUS {count}, REMAINDER {it})" for it in range(count)]
        one, other = self.conditions.constant(key), self.conditions.constant(key)
        last = ["DEFAULT"] if self.chance.random() < 0.6 else []
        if strategy == "LIST":
            null = ", NULL" if self.chance.random() < 0.4 else ""
            return [f"FOR VALUES IN ({one}{null})", *([f"FOR VALUES IN ({other})"] if other != one else []), *last]
        found = [f"FOR VALUES FROM (MINVALUE) TO ({one})", f"FOR VALUES FROM ({one}) TO (MAXVALUE)"]
        return [found[0], *(found[1:] if self.chance.random() < 0.7 else []), *last]

    def leaf(self, design: Design, node: Node, leaf: Node, bounds: str) -> list[str]:
        """Returns the statements for a partition that stores rows itself."""
        match leaf.way:
            case "unlogged":
                return [f"CREATE UNLOGGED TABLE {leaf.name} PARTITION OF {node.name} {bounds}"]
            case "foreign":
                remote = f"{leaf.name.rpartition('.')[2]}_remote"
                listed = ", ".join([*(f"{it.name} {it.kind.type}" for it in design.columns), f"{NUMBER} bigint"])
                return [
                    f"CREATE TABLE public.{design.name}_{remote} ({listed})",
                    f"CREATE FOREIGN TABLE {leaf.name} PARTITION OF {node.name} {bounds} SERVER attack_loop "
                    f"OPTIONS (schema_name 'public', table_name '{design.name}_{remote}')"]
            case "attached":
                listed = ", ".join([f"{NUMBER} bigint", "gone integer", *map(declared, reversed(design.columns))])
                return [f"CREATE TABLE {leaf.name} ({listed})", f"ALTER TABLE {leaf.name} DROP COLUMN gone",
                        f"ALTER TABLE {node.name} ATTACH PARTITION {leaf.name} {bounds}"]
        return [f"CREATE TABLE {leaf.name} PARTITION OF {node.name} {bounds}"]

    def identity(self, node: Node) -> list[str]:
        """Returns the replica identity, usually FULL."""
        if node.way in ("foreign", "unlogged") or self.chance.random() < 0.04:
            return []
        return [f"ALTER TABLE {node.name} REPLICA IDENTITY FULL"]

    def publications(self, design: Design, root: Node) -> list[Publication]:
        """Returns publications of the root, of the leaves, or of any parts."""
        kind = self.chance.random()
        filters = filters_of(self.conditions, design.columns)[:SUBSCRIBERS]
        leaves = [it for it in root.all() if not it.children]
        if kind < 0.45:
            return [self.publication(design, place, [(root, it)], place, True) for place, it in enumerate(filters)]
        if kind < 0.6:
            return [self.publication(design, place, [(leaf, "")], place % 3, self.chance.random() < 0.3)
                    for place, leaf in enumerate(leaves)]
        if kind < 0.8:
            return [self.publication(design, place, [(leaf, it) for leaf in leaves], place, self.chance.random() < 0.3)
                    for place, it in enumerate(filters)]
        return [self.anyhow(design, place, root, filters) for place in range(self.chance.choice((2, 3, 4)))]

    def anyhow(self, design: Design, place: int, root: Node, filters: list[str]) -> Publication:
        """Returns a publication of some parts, or of a schema."""
        if self.chance.random() < 0.2:
            schema = self.chance.choice((design.name, f"{design.name}_more"))
            return Publication(
                f"{design.name}_p{place}", f"CREATE PUBLICATION {design.name}_p{place} FOR TABLES IN SCHEMA {schema}"
                f"{self.options(self.chance.random() < 0.5)}", self.chance.randrange(3))
        via_root = self.chance.random() < 0.5
        parts = self.chance.sample(root.all(), min(len(root.all()), self.chance.choice((1, 1, 2, 3))))
        return self.publication(
            design, place, [(it, self.chance.choice((*filters, ""))) for it in parts], self.chance.randrange(3),
            via_root)

    def publication(
        self, design: Design, place: int, parts: list[tuple[Node, str]], taker: int, via_root: bool,
    ) -> Publication:
        """Returns a publication of tables, each with a filter or ''."""
        listed = []
        for node, filter in parts:
            is_alone = "ONLY " if node.children and self.chance.random() < 0.05 else ""
            columns = ""
            if self.chance.random() < 0.04:
                some = [it.name for it in design.columns if self.chance.random() < 0.7]
                columns = f" ({', '.join([NUMBER, *some])})"
            listed.append(f"{is_alone}{node.name}{columns}{f' WHERE ({filter})' if filter else ''}")
        name = f"{design.name}_p{place}"
        found = next((it for _, it in parts if it), None)
        who: int | None = taker if self.chance.random() < 0.93 else self.chance.choice((0, None))
        return Publication(name, f"CREATE PUBLICATION {name} FOR TABLE {', '.join(listed)}{self.options(via_root)}",
            who, found)

    def options(self, via_root: bool) -> str:
        """Returns the options of a publication."""
        found = [f"publish_via_partition_root = {str(via_root).lower()}"]
        if self.chance.random() < 0.05:
            found.append(f"publish = '{self.chance.choice(OPERATIONS)}'")
        return f" WITH ({', '.join(found)})"
