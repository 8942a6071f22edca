"""Cases at the documented limits, each with some random content."""

import random
from collections.abc import Callable

from model.catalogs import DEFAULT, FULL, Catalog, Column, Filter, Publication, Subscription, Table
from model.tables import Command
from model.worlds import ALL, Step, World

from .scripts import ScriptMaker
from .simulations import Simulation

MOST_STEPS = 100_000
MOST_COMMANDS = 1_000


def two_halves(chance: random.Random, bound: int, kind: str = "integer") -> Catalog:
    """Returns a catalog with a table that two subscribers share by its key."""
    columns = (Column("id", kind, False), Column("note", "text", False), Column("small", "smallint", True))
    table = Table("public", "t", columns, (0,), (), chance.choice([FULL, DEFAULT]))
    conditions: list[Filter] = [("cmp", 0, 0, "<", bound), ("cmp", 0, 0, ">=", bound)]
    publications = [Publication(f"p{number}", ((0, it),)) for number, it in enumerate(conditions)]
    return Catalog((table,), tuple(publications), (Subscription("s0", (0,)), Subscription("s1", (1,))))


def many_parts(subscribers: int, each: int) -> Catalog:
    """Returns a catalog with a table that subscribers share by ranges of its key, one for each of their
    publications."""
    columns = (Column("id", "integer", False), Column("flag", "boolean", False))
    table = Table("public", "t", columns, (0,))
    number = subscribers * each
    publications = [Publication(f"p{at}", ((0, range_of(at, number)),)) for at in range(number)]
    taken = [tuple(range(at, number, subscribers)) for at in range(subscribers)]
    subscriptions = tuple(Subscription(f"s{at}", it) for at, it in enumerate(taken))
    return Catalog((table,), tuple(publications), subscriptions)


def range_of(at: int, number: int) -> Filter:
    """Returns one of this many ranges of ten numbers. The first and the last are unbounded on one side."""
    if number == 1:
        return ("const", True)
    if at == 0:
        return ("cmp", 0, 0, "<", 10)
    if at == number - 1:
        return ("cmp", 0, 0, ">=", 10 * at)
    return ("between", 0, 0, 10 * at, 10 * at + 9)


def inserts(keys: list[int], text: str = "") -> list[Command]:
    """Returns inserts into the table of two halves."""
    return [("insert", 0, (key, f"{text}{key}", key % 100)) for key in keys]


def in_commits(commands: list[Command], most: int = MOST_COMMANDS) -> list[Step]:
    """Returns commits of this many commands."""
    return [("commit", commands[at:at + most]) for at in range(0, len(commands), most)]


def both(kind: str, *more: object) -> list[Step]:
    """Returns the same step for both subscribers."""
    return [(kind, 0, *more), (kind, 1, *more)]


def many_rows(chance: random.Random, number: int, first: float) -> tuple[Catalog, list[Step]]:
    """Fills a table with this many rows, in random order, of which s0 has a first part; then deletes half of them."""
    keys = list(range(number))
    chance.shuffle(keys)
    pumps = both("pump")
    changed = [("update", 0, (key,), (key + number, None, 1)) for key in keys[:number // 4]]
    deleted = [("delete", 0, (key,)) for key in keys[number // 4:number // 2]]
    return two_halves(chance, int(number * first)), [
        *in_commits(inserts(keys)), *both("open"), *pumps, ("view",), *in_commits(changed + deleted), *pumps, ("view",)]


def large_commits(chance: random.Random) -> tuple[Catalog, list[Step]]:
    """Makes commits of 1,000 commands for one subscriber, of 1,001, of 1,000 with a fault in the last one, and of all
    lengths."""
    keys = list(range(5_000))
    many = inserts(keys[:MOST_COMMANDS])
    steps: list[Step] = [*both("open"), ("commit", many), *both("hear", ALL), *both("take")]
    faulty = [*inserts(keys[1_000:1_999]), ("delete", 0, (4_999,))]
    updates = [("update", 0, (key,), (key, "new", 0)) for key in keys[:MOST_COMMANDS]]
    steps += [("commit", inserts(keys[1_000:2_001])), ("commit", faulty), ("commit", updates), *both("pump"), ("view",)]
    for _ in range(8):
        begin, number = chance.randrange(1_000, 3_000), chance.randrange(1, 990)
        steps.append(("commit", inserts(keys[begin:begin + number])))
    return two_halves(chance, 10_000), [*steps, ("commit", [("truncate", [0])]), *both("pump"), ("view",)]


def long_log(chance: random.Random, commits: int) -> tuple[Catalog, list[Step]]:
    """Makes this many commits on a few rows, and then connects the subscribers, if steps are left."""
    steps: list[Step] = []
    there: set[int] = set()
    for _ in range(commits):
        key = chance.randrange(40)
        if key not in there:
            steps.append(("commit", inserts([key])))
        elif chance.random() < 0.5:
            row = (key, chance.choice(["a", "\t", None]), chance.randrange(9))
            steps.append(("commit", [("update", 0, (key,), row)]))
        else:
            steps.append(("commit", [("delete", 0, (key,))]))
        there ^= {key} if steps[-1][1][0][0] != "update" else set()
    if commits < MOST_STEPS:
        steps += [*both("open"), *both("pump"), ("view",)]
    return two_halves(chance, 20), steps


def long_script(chance: random.Random) -> tuple[Catalog, list[Step]]:
    """Makes 100,000 steps: first pieces of many statuses and keepalives, and then, with late clocks, steps of all
    kinds."""
    steps: list[Step] = [*both("open"), *both("hear", ALL), ("commit", inserts([1, 30]))]
    steps += [("report", 0, True)] * 30_000 + [("keep", 1, True)] * 30_000
    steps += [*both("hear", ALL), *both("deliver", ALL)]
    while len(steps) < MOST_STEPS - 20:
        i = chance.randrange(2)
        steps += [("take", i), ("keep", i, chance.random() < 0.5), ("report", i, chance.random() < 0.5)]
        steps += [("hear", i, chance.randrange(80)), ("deliver", i, chance.randrange(300))]
        if chance.random() < 0.3:
            steps.append(("commit", [("update", 0, (i * 29 + 1,), (i * 29 + 1, "x", len(steps) % 10))]))
        if chance.random() < 0.02:
            steps += [("lose", i), ("open", i), ("pump", i), ("view",)]
    steps += [*both("pump"), ("view",)]
    return two_halves(chance, 20), [*steps, *[("commit", [])] * (MOST_STEPS - len(steps))]


def long_pieces(chance: random.Random) -> tuple[Catalog, list[Step]]:
    """Sends long texts to both subscribers in pieces of many lengths, over connections that are lost in between."""
    texts = [chance.choice("abc") * chance.choice([65_535, 65_534, 30_000]) for _ in range(100)]
    steps: list[Step] = [("commit", [("insert", 0, (key, text, 1)) for key, text in enumerate(texts)])]
    for _ in range(3):
        steps += [*both("open"), *both("hear", ALL), *both("take")]
        for _ in range(20):
            steps += both("deliver", chance.choice([65_535, 65_536, 65_601, 1, 200_000]))
        steps += both("lose")
    steps += [*both("open"), *both("hear", ALL), *both("take"), *both("deliver", ALL), *both("report", True), ("view",)]
    steps.append(("commit", [("update", 0, (key,), (key, f"{text[1:]}z", 2)) for key, text in enumerate(texts)]))
    return two_halves(chance, chance.choice([0, 50, 100])), [*steps, *both("pump")]


def many_connections(chance: random.Random) -> tuple[Catalog, list[Step]]:
    """Makes thousands of connections, one after another, each of which is lost after some bytes in both directions."""
    steps: list[Step] = []
    for number in range(3_000):
        i = chance.randrange(2)
        steps += [("commit", inserts([number], "\t")), ("open", i), ("hear", i, chance.choice([90, 91, 92, ALL]))]
        steps += [("take", i), ("take", i), ("deliver", i, chance.randrange(700)), ("report", i, False)]
        steps += [("hear", i, chance.randrange(45)), ("lose", i)]
    return two_halves(chance, 1_500), [*steps, *both("open"), *both("pump"), ("view",)]


def parts_of_publications(chance: random.Random, subscribers: int, each: int) -> tuple[Catalog, list[Step]]:
    """Sends rows of all ranges to subscribers with many publications, over one connection after another."""
    keys = chance.sample(range(-5, 10 * subscribers * each + 5), 8 * subscribers)
    steps: list[Step] = [("commit", [("insert", 0, (key, chance.choice([True, False, None]))) for key in keys])]
    for i in range(subscribers):
        steps += [("open", i), ("hear", i, chance.randrange(900)), ("take", i), ("hear", i, ALL), ("take", i)]
        steps += [("deliver", i, chance.randrange(900)), ("lose", i), ("open", i)]
    steps.append(("commit", [("update", 0, (key,), (key + 10_000, True)) for key in keys]))
    shown: list[Step] = [*(("pump", i) for i in range(subscribers)), ("view",)]
    return many_parts(subscribers, each), [*steps, *shown, ("commit", [("truncate", [0])]), *shown]


Maker = Callable[[random.Random], tuple[Catalog, list[Step]]]

MAKERS: list[Maker] = [
    lambda chance: long_log(chance, MOST_STEPS),
    lambda chance: long_log(chance, MOST_STEPS - 5),
    lambda chance: long_log(chance, chance.randint(6_001, 30_000)),
    lambda chance: many_rows(chance, 20_000, 1),
    lambda chance: many_rows(chance, 10_000, 0),
    lambda chance: many_rows(chance, chance.randint(10_101, 15_000), chance.random()),
    large_commits, large_commits, large_commits,
    long_script, long_pieces, long_pieces, many_connections,
    lambda chance: parts_of_publications(chance, 1, 64),
    lambda chance: parts_of_publications(chance, 32, 2),
    lambda chance: parts_of_publications(chance, 32, 1),
    lambda chance: parts_of_publications(chance, 2, 32),
    lambda chance: parts_of_publications(chance, chance.randint(3, 20), 3),
]


def case(chance: random.Random, number: int) -> Simulation:
    """Returns the case with a number from 0."""
    catalog, steps = MAKERS[number](chance)
    made = ScriptMaker(chance, catalog, World(catalog))
    for step in steps:
        made.add(step)
    return Simulation(chance, catalog, made)
