"""Random conditions over columns, and trees of them."""

import random
from collections.abc import Callable
from dataclasses import dataclass, field

from .kinds import Kind

OPERATORS = ("=", "<>", "<", "<=", ">", ">=")
TESTS = ("IS TRUE", "IS NOT TRUE", "IS FALSE", "IS NOT FALSE", "IS UNKNOWN", "IS NOT UNKNOWN")
# The share of conditions that are comparisons or tests for NULL.
PLAIN = 0.4
SMALL, GREAT = (1, 2, 3, 4, 5, 8), (1, 7, 16, 255, 256, 4096, 1000, 30000)
FAMILIES = {
    **dict.fromkeys(("int2", "int4", "int8", "numeric", "cents", "tens", "tiny", "float8", "float4"), "numbers"),
    **dict.fromkeys(("date", "timestamp", "seconds", "timestamptz"), "moments"),
    **dict.fromkeys((
        "text", "text_c", "text_posix", "text_icu", "text_de", "text_root", "text_ucs", "varchar", "varchar3", "char3",
        "char1", "char_icu", "bpchar", "name"), "texts"),
}


def family(kind: Kind) -> str:
    """Returns the family of a kind. Columns of one family are compared with each other."""
    return FAMILIES.get(kind.name, kind.name)


# Whether the server accepts a template of a kind.
Takes = Callable[[Kind, str], bool]


@dataclass
class Column:
    """A column as SQL names it, its kind, and the constants that conditions compare it with."""

    name: str
    kind: Kind
    is_not_null: bool = False
    constants: list[str] = field(default_factory=list)


class Conditions:
    """Generates random conditions."""

    def __init__(self, chance: random.Random, takes: Takes) -> None:
        self.chance = chance
        self.takes = takes

    def template(self, kind: Kind, among: tuple[str, ...]) -> str:
        """Returns one of several templates that the server accepts."""
        left = list(among)
        while left:
            found = self.chance.choice(left)
            if self.takes(kind, found):
                return found
            left.remove(found)
        raise LookupError(f"the server takes no condition of a column of kind {kind.name}")

    def constant(self, column: Column) -> str:
        """Returns a constant of a column's kind, or one that is compared with the column elsewhere."""
        if column.constants and self.chance.random() < 0.4:
            return self.chance.choice(column.constants)
        found = self.chance.choice(column.kind.values)
        column.constants.append(found)
        return found

    def filled(self, template: str, column: Column, columns: list[Column]) -> str:
        """Returns a template for a column, with its placeholders replaced."""
        others = [it for it in columns if it is not column and family(it.kind) == family(column.kind)]
        choice = self.chance.choice
        other = choice(others).name if others and self.chance.random() < 0.8 else self.constant(column)
        low, high = choice(SMALL), choice((-3, -2, -1, 0, 0, 1, 2, 3))
        return template.format(
            c=column.name, d=other, k=self.constant(column), l=self.constant(column), op=choice(OPERATORS),
            eq=choice(OPERATORS[:2]), m=low, r=high, j=choice(GREAT))

    def condition(self, columns: list[Column]) -> str:
        """Returns a condition on a column."""
        column = self.chance.choice(columns)
        among = column.kind.plain if self.chance.random() < PLAIN else column.kind.conditions
        return self.filled(self.template(column.kind, among), column, columns)

    def formula(self, columns: list[Column], depth: int) -> str:
        """Returns a tree of conditions."""
        kind = self.chance.random()
        if depth == 0 or kind < 0.4:
            return self.condition(columns)
        one, other = self.formula(columns, depth - 1), self.formula(columns, depth - 1)
        if kind < 0.5:
            return f"NOT ({one})"
        if kind < 0.6:
            return f"({one}) {self.chance.choice(TESTS)}"
        if kind < 0.66:
            return f"CASE WHEN {one} THEN {other} ELSE {self.formula(columns, depth - 1)} END"
        if kind < 0.7:
            return f"coalesce({one}, {other})"
        if kind < 0.73:
            return f"({one}) {self.chance.choice(('IS DISTINCT FROM', 'IS NOT DISTINCT FROM', '=', '<>'))} ({other})"
        return f"({one}) {self.chance.choice(('AND', 'OR'))} ({other})"

    def measure(self, columns: list[Column]) -> str | None:
        """Returns an integer expression of a column, or None if no kind has one."""
        measured = [it for it in columns if it.kind.measures]
        if not measured:
            return None
        column = self.chance.choice(measured)
        return self.filled(self.template(column.kind, column.kind.measures), column, columns)
