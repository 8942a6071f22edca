"""Random rows and keys: at the limits of types, near the constants of filters, and plain ones."""

import random

from model.catalogs import Column, Filter, Row, Table, Value
from model.filters import all_atoms, literals_of
from model.values import ENDS, LONGEST_TEXT

TEXTS = [
    "", "a", "b", "ab", "A", " a", "a ", "it's", "''", '"', "\\", "two words", "tab\there", "\t", "\x01\x02\x1f\x7f",
    "\r", "é漢😀", "%%", "--", "/*", "NULL", "null", "0", "(1, 2)", "\v\f\b",
]
# All ASCII characters except the zero byte and the newline.
ALL_ASCII = "".join(map(chr, [*range(1, 10), *range(11, 128)]))
# Rows cannot contain the least bigint.
LOWEST = -(2**63) + 1


class Values:
    """Generates values for the columns of a table; these filters distinguish them."""

    def __init__(
            self, chance: random.Random, table: Table, filters: list[Filter], lines: bool, long: float = 0.003) -> None:
        self.chance = chance
        self.table = table
        self.lines = lines
        self.long = long / max(1, len(table.columns) // 5)
        self.near: list[list[Value]] = [[] for _ in table.columns]
        for atom in [atom for it in filters for atom in all_atoms(it)]:
            self.near[atom[1]] += literals_of(atom)

    def row(self) -> Row:
        """Returns a row that fits the table."""
        return tuple(self.value(number) for number in range(len(self.table.columns)))

    def value(self, number: int) -> Value:
        """Returns a value of a column."""
        column = self.table.columns[number]
        if not column.not_null and number not in self.table.key and self.chance.random() < 0.15:
            return None
        if column.kind == "boolean":
            return self.chance.random() < 0.5
        return self.text(number) if column.kind == "text" else self.integer(column, number)

    def integer(self, column: Column, number: int) -> int:
        """Returns a number of the column's type."""
        chance, end = self.chance, ENDS[column.kind]
        found = chance.choice([0, 1, 2, 3, 4, -1, -2, 5, 7, 100])
        kind = chance.random()
        if self.near[number] and kind < 0.6:
            found = chance.choice(self.near[number]) + chance.choice([-1, 0, 0, 1])
        elif kind < 0.8:
            found = chance.choice([-end, -end + 1, end - 1, end - 2, chance.randrange(-end, end)])
        return max(LOWEST, -end, min(end - 1, found))

    def text(self, number: int) -> str:
        """Returns a text."""
        chance, kind = self.chance, self.chance.random()
        if kind < self.long:
            return chance.choice(["x" * LONGEST_TEXT, "'" * LONGEST_TEXT, "é" * (LONGEST_TEXT // 2)])
        if kind < 0.01:
            return chance.choice("ab'\t") * chance.randint(1, 5_000)
        if kind < 0.02:
            return ALL_ASCII
        if kind < 0.04 and self.lines:
            return "new\nline"
        if self.near[number] and kind < 0.6:
            return chance.choice(self.near[number]) + chance.choice(["", "", "", " "])
        return chance.choice(TEXTS)

    def faulty_row(self) -> Row:
        """Returns a well-formed row that may not fit the table."""
        row = list(self.row())
        at = self.chance.randrange(len(row))
        match self.chance.randrange(5):
            case 0:
                row.append(None)
            case 1:
                row[at] = None
            case 2:
                row[at] = self.chance.choice([1, True, "a"])
            case 3:
                row[at] = self.chance.choice([32768, -32769, 2**31, -(2**31) - 1, 2**63 - 1])
            case _ if len(row) > 1:
                del row[at]
        return tuple(row)

    def faulty_key(self) -> Row:
        """Returns a key that may not fit the table."""
        return self.faulty_row()[:self.chance.randint(1, 3)] or (None,)
