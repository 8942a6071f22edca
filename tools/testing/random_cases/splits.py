"""Conditions that divide all rows of a table: exactly one of them is true for each row."""

import random

from model.catalogs import Filter, Table
from model.knowledge import is_declared
from model.values import ENDS

from .filters import DIVISORS, FilterMaker

Conditions = list[Filter]


class Splitter:
    """Divides the rows of a table by some of its columns."""

    def __init__(self, chance: random.Random, table: Table, columns: tuple[int, ...]) -> None:
        self.chance = chance
        self.table = table
        self.columns = columns
        self.filters = FilterMaker(chance, table, columns)

    def conditions(self, fewest: int) -> Conditions:
        """Returns at least this many conditions, if some column can be split."""
        found: Conditions = [("const", True)]
        while self.columns and len(found) < fewest:
            at = self.chance.randrange(len(found))
            whole = found[at]
            parts = self.split()
            if whole != ("const", True):
                parts = [("and", whole, part) for part in parts]
            found[at:at + 1] = parts
        self.chance.shuffle(found)
        return found

    def split(self) -> Conditions:
        """Returns two or more conditions, by one column or by a filter."""
        chance = self.chance
        column = chance.choice(self.columns)
        kind = self.table.columns[column].kind
        ways = [self.by_atom, self.by_atom, self.by_filter, self.by_list]
        if kind in ENDS:
            ways += [self.by_bound, self.by_bound, self.by_remainder]
        return chance.choice(ways)(column)

    def by_atom(self, column: int) -> Conditions:
        """Returns an atom of the column, its negation, and a test for NULL if the column may be null."""
        filters = FilterMaker(self.chance, self.table, (column,))
        return self.both_sides(filters.atom())

    def both_sides(self, atom: Filter) -> Conditions:
        """Returns an atom, its negation, and a test for both being null."""
        found = [atom, ("not", atom)]
        if atom[0] in ("null", "distinct") or is_declared(self.table, atom[1]):
            return found
        unknown = ("null", atom[1]) if self.chance.random() < 0.6 else ("is", None, atom)
        if self.chance.random() < 0.2:
            return [atom, ("is", False, ("is", True, atom))]
        return [*found, unknown]

    def by_bound(self, column: int) -> Conditions:
        """Returns numbers below a bound and the others, expressed by two comparisons."""
        divisor = self.chance.choice(DIVISORS) if self.chance.random() < 0.1 else 0
        bound = self.filters.literal("integer")
        low, high = self.chance.choice([("<", ">="), ("<=", ">")])
        return self.with_null(column, [("cmp", column, divisor, it, bound) for it in (low, high)])

    def by_remainder(self, column: int) -> Conditions:
        """Returns a condition for each remainder."""
        divisor = self.chance.choice([2, 3, -2])
        most = abs(divisor) - 1
        return self.with_null(column, [("cmp", column, divisor, "=", it) for it in range(-most, most + 1)])

    def by_list(self, column: int) -> Conditions:
        """Returns what is in a list, and what is not."""
        kind = self.table.columns[column].kind
        return self.both_sides(("in", column, 0, self.filters.listed(kind)))

    def by_filter(self, _: int) -> Conditions:
        """Returns conditions for a filter that is true, false or null."""
        it = self.filters.filter(1) if self.chance.random() < 0.97 else self.filters.any()
        if self.chance.random() < 0.5:
            return [("is", True, it), ("not", ("is", True, it))]
        return [it, ("not", it), ("is", None, it)]

    def with_null(self, column: int, conditions: Conditions) -> Conditions:
        """Returns the conditions, and a test for NULL if the column may be null."""
        return conditions if is_declared(self.table, column) else [*conditions, ("null", column)]
