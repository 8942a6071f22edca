"""A table divided into halves, one divided over many subscribers, and rows of several megabytes."""

import itertools

from .publisher import Command, Insert, Subscriber, Table, Update
from .sharding import Sharding

HALVES_CATALOG = """\
CREATE TABLE t (id integer, region text, PRIMARY KEY (id));
ALTER TABLE t REPLICA IDENTITY FULL;
CREATE PUBLICATION pa FOR TABLE t WHERE (id < 100);
CREATE PUBLICATION pb FOR TABLE t WHERE (id >= 100);
CREATE SUBSCRIPTION s0 CONNECTION '' PUBLICATION pa;
CREATE SUBSCRIPTION s1 CONNECTION '' PUBLICATION pb;
"""
TABLE = Table("t", (("id", "integer"), ("region", "text")), key=(0,), letter="f", identity=(0, 1))
S0 = Subscriber("s0", ("pa",), {"t": lambda row: row[0] < 100})
S1 = Subscriber("s1", ("pb",), {"t": lambda row: row[0] >= 100})

CROWD = 32
# How often each row of the crowd moves to the next subscriber.
ROUNDS = 10

# Rows of one subscriber that take 7 MB, more than a system buffers for a connection that nobody reads.
LARGE = 60_000
LARGE_ROWS = 120

MOST_COMMANDS = 64


def halves(commits: list[list[Command]], refused: frozenset[int] = frozenset()) -> Sharding:
    """Rows with a number below 100 go to s0, and the others to s1."""
    return Sharding(HALVES_CATALOG, (TABLE,), (S0, S1), commits, refused)


def large() -> Sharding:
    """Each commit has a large row for s1, and a small one for s0."""
    return halves([
        [Insert("t", (100 + number, "x" * LARGE)), Insert("t", (-number, None))] for number in range(LARGE_ROWS)])


def growing() -> Sharding:
    """Commits of 1 to 64 commands, each of which inserts a row; every second row is for s1."""
    numbers = itertools.count(1)
    return halves([
        [Insert("t", (number * (-1) ** number + 100, None)) for number in itertools.islice(numbers, count)]
        for count in range(1, MOST_COMMANDS + 1)])


def crowd() -> Sharding:
    """Each of many subscribers has one row, which moves from one subscriber to the next."""
    commits: list[list[Command]] = [[Insert("t", (number, number)) for number in range(CROWD)]]
    for turn in range(1, ROUNDS + 1):
        commits.append([Update("t", (number,), (number, (number + turn) % CROWD)) for number in range(CROWD)])
    return of_crowd((("id", "integer"), ("turn", "integer")), commits)


def of_crowd(columns: tuple[tuple[str, str], ...], commits: list[list[Command]], many: int = CROWD) -> Sharding:
    """The second column of the table is the number, from 0, of the subscriber that has the row."""
    tests = ["turn < 1", *(f"turn = {number}" for number in range(1, many - 1)), f"turn >= {many - 1}"]
    listed = ", ".join(f"{name} {kind} NOT NULL" for name, kind in columns)
    catalog = f"CREATE TABLE t ({listed}, PRIMARY KEY (id));\nALTER TABLE t REPLICA IDENTITY FULL;\n"
    for number, test in enumerate(tests):
        catalog += f"CREATE PUBLICATION p{number} FOR TABLE t WHERE ({test});\n"
        catalog += f"CREATE SUBSCRIPTION s{number} CONNECTION '' PUBLICATION p{number};\n"
    table = Table("t", columns, key=(0,), letter="f", identity=tuple(range(len(columns))))
    return Sharding(catalog, (table,), tuple(map(one_of_crowd, range(many))), commits)


def one_of_crowd(number: int) -> Subscriber:
    return Subscriber(f"s{number}", (f"p{number}",), {"t": lambda row: row[1] == number})
