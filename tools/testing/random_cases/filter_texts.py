"""Filters as they are written in catalogs, each in one of its possible forms."""

import random

from model.catalogs import Filter, Table, Value
from model.values import written

from .names import spelled
from .texts import Exact

# The levels of precedence: OR, AND, NOT, tests, comparisons, operands.
OR, AND, NOT, TEST, COMPARISON, OPERAND = range(6)
TURNED = {"<": ">", "<=": ">=", ">": "<", ">=": "<=", "=": "=", "<>": "<>"}
TESTS = {True: "TRUE", False: "FALSE", None: "UNKNOWN"}


class FilterText:
    """Prints the filters of a table."""

    def __init__(self, table: Table, chance: random.Random) -> None:
        self.table = table
        self.chance = chance

    def is_likely(self, share: float) -> bool:
        """Returns true with this probability."""
        return self.chance.random() < share

    def tokens(self, it: Filter, level: int = OR) -> list[str]:
        """Returns a filter for a place that needs at least this precedence."""
        own, found = self.written(it)
        if own < level or self.is_likely(0.05):
            return ["(", *found, ")"]
        return found

    def written(self, it: Filter) -> tuple[int, list[str]]:
        """Returns a filter without parentheses, and its precedence."""
        match it:
            case ("or", left, right):
                return OR, [*self.tokens(left, OR), "OR", *self.tokens(right, AND)]
            case ("and", left, right):
                return AND, [*self.tokens(left, AND), "AND", *self.tokens(right, NOT)]
            case ("not", inner):
                return self.negated(inner)
            case ("is", test, inner):
                return TEST, [*self.tokens(inner, COMPARISON), "IS", TESTS[test]]
            case ("const", value):
                return OPERAND, ["TRUE" if value else "FALSE"]
        return self.atom(it)

    def negated(self, it: Filter) -> tuple[int, list[str]]:
        """Returns NOT of a filter, in its own form if there is one."""
        if self.is_likely(0.7):
            match it:
                case ("null", column):
                    name = self.operand(column, 0)
                    return TEST, [*name, "NOTNULL"] if self.is_likely(0.3) else [*name, "IS", "NOT", "NULL"]
                case ("is", test, inner):
                    return TEST, [*self.tokens(inner, COMPARISON), "IS", "NOT", TESTS[test]]
                case ("in", *_) | ("between", *_) | ("distinct", *_):
                    return self.membership(it, ["NOT"])
        return NOT, ["NOT", *self.tokens(it, NOT)]

    def atom(self, it: Filter) -> tuple[int, list[str]]:
        """Returns an atom."""
        if it[0] == "null":
            name = self.operand(it[1], 0)
            return TEST, [*name, "ISNULL"] if self.is_likely(0.3) else [*name, "IS", "NULL"]
        if it[0] != "cmp":
            return self.membership(it, [])
        _, column, divisor, operator, literal = it
        if operator == "=" and literal is True and self.is_likely(0.7):
            return OPERAND, self.operand(column, 0)
        sides = [self.operand(column, divisor), [*self.literal(literal)]]
        if self.is_likely(0.2):
            sides.reverse()
            operator = TURNED[operator]
        return COMPARISON, [*sides[0], "!=" if operator == "<>" and self.is_likely(0.3) else operator, *sides[1]]

    def membership(self, it: Filter, negation: list[str]) -> tuple[int, list[str]]:
        """Returns IN, BETWEEN or IS DISTINCT FROM, or a NOT of one."""
        term = self.operand(it[1], it[2])
        if it[0] == "distinct":
            return TEST, [*term, "IS", *negation, "DISTINCT", "FROM", *self.literal(it[3])]
        if it[0] == "between":
            return COMPARISON, [*term, *negation, "BETWEEN", *self.literal(it[3]), "AND", *self.literal(it[4])]
        listed = [*it[3], *self.chance.choices(it[3], k=self.chance.randrange(3) if len(it[3]) < 90 else 0)]
        self.chance.shuffle(listed)
        found = [token for literal in listed for token in (",", *self.literal(literal))]
        return COMPARISON, [*term, *negation, "IN", "(", *found[1:], ")"]

    def operand(self, column: int, divisor: int) -> list[str]:
        """Returns a column or its remainder."""
        found: list[str] = [Exact(spelled(self.table.columns[column].name, self.chance))]
        if divisor:
            found += ["%", *self.literal(divisor)]
        return ["(", *found, ")"] if self.is_likely(0.1) else found

    def literal(self, value: Value) -> list[str]:
        """Returns a literal."""
        if isinstance(value, bool):
            return ["TRUE" if value else "FALSE"]
        if isinstance(value, int):
            return ["-", str(-value)] if value < 0 else [str(value)]
        cast = ["::", "text"] if self.is_likely(0.1) else []
        return [Exact(written(value)), *cast]
