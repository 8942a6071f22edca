"""Tests comparisons of operands against the values that PostgreSQL's documentation gives, with NULL as None."""

import itertools
import unittest

from pgshard_tools.judging import bounding, comparing
from pgshard_tools.judging.formulas import And, Compare, Const, Formula, Is, IsNull, Not, Or, Subject
from pgshard_tools.judging.operands import Choice, Extreme, Ref, Value
from pgshard_tools.judging.points import finite

VALUES = [None, 0, 1, 2]
SUBJECTS = {it: Subject(sql=it, type="int4", columns=(it,), is_column=True) for it in "abc"}
REFS = {it: Ref(subject, "int4") for it, subject in SUBJECTS.items()}
OPERATORS = {
    "=": lambda a, b: a == b, "<>": lambda a, b: a != b, "<": lambda a, b: a < b, "<=": lambda a, b: a <= b,
    ">": lambda a, b: a > b, ">=": lambda a, b: a >= b}


def value(formula: Formula, row: dict[str, int | None]) -> bool | None:
    """Returns the truth value of a formula in three-valued logic."""
    match formula:
        case Const():
            return formula.value
        case Not():
            part = value(formula.part, row)
            return None if part is None else not part
        case And() | Or():
            parts = [value(it, row) for it in formula.parts]
            strong = isinstance(formula, Or)
            return strong if strong in parts else None if None in parts else not strong
        case Is():
            return value(formula.part, row) is {"TRUE": True, "FALSE": False, "UNKNOWN": None}[formula.test]
        case IsNull():
            return row[formula.subject.sql] is None
        case Compare():
            if formula.subject.type == "sign":
                one, other = (row[it] for it in formula.subject.sides)
                its = None if one is None or other is None else (one > other) - (one < other)
            else:
                its = row[formula.subject.sql]
            return None if its is None else OPERATORS[formula.op](its, formula.value.value)
    raise TypeError(formula)


def plain(op: str, one: int | None, other: int | None) -> bool | None:
    """Applies a strict operator."""
    return None if one is None or other is None else OPERATORS[op](one, other)


class Comparisons(unittest.TestCase):
    def rows(self):  # type: ignore[no-untyped-def]
        for values in itertools.product(VALUES, repeat=3):
            yield dict(zip("abc", values))

    def check(self, found: Formula, expected) -> None:  # type: ignore[no-untyped-def]
        wrong = [row for row in self.rows() if value(found, row) is not expected(**row)]
        self.assertEqual(wrong, [], found)

    def test_columns_and_constants(self) -> None:
        for op in OPERATORS:
            one = comparing.comparison("", op, REFS["a"], Value("int4", finite(1)), IsNull)
            self.check(one, lambda a, b, c: plain(op, a, 1))
            self.check(comparing.comparison("", op, REFS["a"], REFS["b"], IsNull), lambda a, b, c: plain(op, a, b))
            self.check(comparing.comparison("", op, REFS["a"], REFS["a"], IsNull), lambda a, b, c: plain(op, a, a))
            self.check(comparing.comparison("", op, REFS["a"], Value("int4", None), IsNull), lambda a, b, c: None)

    def test_distinct(self) -> None:
        self.check(comparing.distinct("", REFS["a"], REFS["b"], IsNull), lambda a, b, c: a != b)
        self.check(comparing.distinct("", REFS["a"], Value("int4", None), IsNull), lambda a, b, c: a is not None)

    def test_greatest_and_least(self) -> None:
        for op, (is_greatest, best) in itertools.product(OPERATORS, ((True, max), (False, min))):
            extreme = Extreme(is_greatest, tuple(REFS.values()))

            def of(*values):  # type: ignore[no-untyped-def]
                known = [it for it in values if it is not None]
                return best(known) if known else None

            found = comparing.comparison("", op, extreme, Value("int4", finite(1)), IsNull)
            self.check(found, lambda a, b, c: plain(op, of(a, b, c), 1))
            two = Extreme(is_greatest, (REFS["a"], Value("int4", finite(1))))
            found = comparing.comparison("", op, REFS["b"], two, IsNull)
            self.check(found, lambda a, b, c: plain(op, b, of(a, 1)))
            self.check(comparing.is_null(extreme, IsNull), lambda a, b, c: of(a, b, c) is None)

    def test_case(self) -> None:
        taken = Compare(SUBJECTS["a"], "=", finite(1))
        choice = Choice(taken, REFS["b"], REFS["c"])
        found = comparing.comparison("", "<", choice, Value("int4", finite(1)), IsNull)
        self.check(found, lambda a, b, c: plain("<", b if a == 1 else c, 1))

    def test_rows(self) -> None:
        """The first pair that is unequal or contains a NULL decides."""
        for op in "<", "<=", ">", ">=":
            found = comparing.rows("", op, [(REFS["a"], REFS["b"]), (REFS["b"], REFS["c"])], IsNull)

            def expected(a, b, c):  # type: ignore[no-untyped-def]
                return plain(op, b, c) if a is not None and a == b else plain(op.rstrip("="), a, b)

            self.check(found, expected)


class Bounds(unittest.TestCase):
    def test_between(self) -> None:
        low, high = Not(Compare(SUBJECTS["a"], "<", finite(0))), Compare(SUBJECTS["a"], "<=", finite(9))
        other = Compare(SUBJECTS["b"], "<", finite(3))
        self.assertEqual(bounding.bounds_of([And((low, high)), other], SUBJECTS["a"]), (0, 9))
        self.assertEqual(bounding.bounds_of([Or((And((low, high)), other))], SUBJECTS["a"]), (-(2**31), 2**31 - 1))
        self.assertEqual(bounding.bounds_of([Or((high, Compare(SUBJECTS["a"], "=", finite(20))))], SUBJECTS["a"]),
                         (-(2**31), 20))


if __name__ == "__main__":
    unittest.main()
