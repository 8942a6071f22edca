"""Random filters of all forms."""

import random

from model.catalogs import Filter, Table, Value
from model.filters import atoms_of, nodes_of
from model.values import ENDS

MOST_ATOMS = 64
MOST_NODES = 1_000

NUMBERS = [0, 1, -1, 2, 3, 5, 7, 10, 100, -100]
TEXTS = ["", "a", "b", "eu", "it's", "tab\there", "é漢", "%%", "--", "\x07", "us"]
DIVISORS = [2, 3, 2, -3, 5, 1, -1, 10, 2**31, 2**63 - 1]


class FilterMaker:
    """Generates filters that name only some columns of a table."""

    def __init__(self, chance: random.Random, table: Table, columns: tuple[int, ...]) -> None:
        self.chance = chance
        self.table = table
        self.columns = columns

    def any(self) -> Filter:
        """Returns a filter, sometimes of many atoms, or below many NOTs."""
        chance, kind = self.chance, self.chance.random()
        found = self.filter(chance.randint(0, 3))
        if kind < 0.03:
            for _ in range(chance.randint(10, 45)):
                found = ("not", found)
        elif kind < 0.06 and self.columns:
            for _ in range(chance.randint(10, 45)):
                found = (chance.choice(["and", "or"]), found, self.atom())
        return found

    def filter(self, depth: int) -> Filter:
        """Returns a filter that is nested at most this deeply."""
        chance = self.chance
        if depth == 0 or chance.random() < 0.2:
            return self.atom() if self.columns and chance.random() < 0.97 else ("const", chance.random() < 0.5)
        match chance.randrange(5):
            case 0:
                return ("not", self.filter(depth - 1))
            case 1:
                return ("is", chance.choice([True, False, None]), self.filter(depth - 1))
            case 2 | 3:
                return ("and", self.filter(depth - 1), self.filter(depth - 1))
        return ("or", self.filter(depth - 1), self.filter(depth - 1))

    def atom(self) -> Filter:
        """Returns an atom of any form that the column allows."""
        chance = self.chance
        column = chance.choice(self.columns)
        kind = self.table.columns[column].kind
        divisor = chance.choice(DIVISORS) if kind in ENDS and chance.random() < 0.3 else 0
        match chance.randrange(8):
            case 0:
                return ("null", column)
            case 1:
                return ("in", column, divisor, self.listed(kind))
            case 2 if kind in ENDS:
                return ("between", column, divisor, self.literal(kind), self.literal(kind))
            case 3:
                return ("distinct", column, divisor, self.literal(kind))
        operators = ["=", "<>", "<", "<=", ">", ">="] if kind in ENDS else ["=", "<>"]
        return ("cmp", column, divisor, chance.choice(operators), self.literal(kind))

    def listed(self, kind: str) -> tuple[Value, ...]:
        """Returns the literals of a list."""
        most = 100 if kind in ENDS and self.chance.random() < 0.03 else self.chance.randint(1, 4)
        found = {self.literal(kind) for _ in range(most)}
        if most == 100:
            found = set(range(100))
        return tuple(sorted(found, key=lambda value: value.encode() if isinstance(value, str) else value))

    def literal(self, kind: str) -> Value:
        """Returns a literal."""
        chance = self.chance
        if kind == "boolean":
            return chance.random() < 0.5
        if kind == "text":
            return chance.choice(TEXTS)
        if chance.random() < 0.7:
            return chance.choice(NUMBERS)
        end = chance.choice(list(ENDS.values()))
        return max(-(2**63) + 1, min(2**63 - 1, chance.choice([-end, end - 1, end, -end - 1, -end + 1])))


def is_within(filters: list[Filter]) -> bool:
    """Returns whether a table may have these filters."""
    return len(atoms_of(*filters)) <= MOST_ATOMS and sum(nodes_of(it) for it in filters) <= MOST_NODES
