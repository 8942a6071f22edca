"""Tests how a table is divided into pieces by who gets the rows, against each row of small tables."""

import itertools
import random
import unittest
from types import SimpleNamespace
from typing import Any

import units.catalogs  # noqa: F401 (puts tools on the path)
from pgshard_tools.judging import divisions, picking, ranges
from pgshard_tools.judging.codings import Coding, Integers, Remainders
from pgshard_tools.judging.divisions import Division
from pgshard_tools.judging.formulas import And, Const, Formula, Is, IsNull, Not, Or, Subject, Within, both

TABLES = 150
HIGHEST = 6


def coding(name: str, not_null: bool) -> Coding:
    """Returns a column with a few numbers."""
    found = Integers(Subject(name, "int4", (name,), is_column=True))
    found.low, found.high, found.name, found.not_null = 0, HIGHEST, name, not_null
    return found


def value_of(part: Formula, row: dict[Any, int | None]) -> bool | None:
    """Returns the value of a formula for a row in three-valued logic."""
    match part:
        case Const():
            return part.value
        case Within():
            number = code_of(part.coded, row)
            return None if number is None else any(low <= number <= high for low, high in part.ranges)
        case IsNull():
            return code_of(part.subject, row) is None
        case Not():
            value = value_of(part.part, row)
            return None if value is None else not value
        case Is():
            return value_of(part.part, row) is {"TRUE": True, "FALSE": False, "UNKNOWN": None}[part.test]
        case And():
            values = [value_of(it, row) for it in part.parts]
            return False if False in values else None if None in values else True
        case Or():
            values = [value_of(it, row) for it in part.parts]
            return True if True in values else None if None in values else False
    raise TypeError(part)


def code_of(coded: Any, row: dict[Any, int | None]) -> int | None:
    """Returns the code of a column or of its remainder."""
    if not isinstance(coded, Remainders):
        return row[coded]
    number = row[coded.base]
    return None if number is None else ranges.remainder(number, coded.modulus)


def formula(chance: random.Random, codings: list[Any], depth: int) -> Formula:
    """Returns a random formula."""
    if depth == 0:
        coded = chance.choice(codings)
        if chance.random() < 0.2:
            return IsNull(getattr(coded, "base", coded))
        numbers = [it for it in range(coded.low, coded.high + 1) if chance.random() < 0.5]
        return Within(coded, ranges.of_numbers(numbers))
    parts = tuple(formula(chance, codings, depth - 1) for _ in range(chance.choice((2, 2, 3))))
    tested = Is(chance.choice(("TRUE", "FALSE", "UNKNOWN")), parts[0])
    return chance.choice((And(parts), Or(parts), Not(parts[0]), tested))


def rows_of(codings: list[Coding]) -> list[dict[Any, int | None]]:
    """Returns all rows."""
    choices = [[*range(it.low, it.high + 1), *([] if it.not_null else [None])] for it in codings]
    return [dict(zip(codings, values)) for values in itertools.product(*choices)]


def is_in(codes: Any, row: dict[Any, int | None]) -> bool:
    """Returns whether a row is in a region."""
    for coded, (found, may_be_null) in codes.items():
        number = code_of(coded, row)
        known = codes[getattr(coded, "base", coded)]
        if number is None and not known[1] or number is not None and not picking.in_ranges(found, number):
            return False
    return True


class Divisions(unittest.TestCase):
    """Each row that the constraints allow is in one piece, which gives the subscribers that get it."""

    def test_tables(self) -> None:
        for seed in range(TABLES):
            with self.subTest(seed):
                self.check(random.Random(seed))

    def check(self, chance: random.Random) -> None:
        columns = [coding("a", chance.random() < 0.5), coding("b", chance.random() < 0.5)]
        remainder = Remainders(columns[0], 3)
        listed = [*columns, remainder]
        filters = {name: formula(chance, listed, chance.choice((1, 2))) for name in "pqr"}
        takers = {"one": ["p"], "two": ["q", "r"], "three": [chance.choice("pqr")]}
        constraints = [formula(chance, listed, 1)] if chance.random() < 0.5 else []
        trial = SimpleNamespace(
            filters=filters, constraints=constraints,
            rewritten=SimpleNamespace(codings=columns, remainders={"a": {3: remainder}}))
        division = divisions.divided(trial, takers)
        self.assertTrue(division.is_whole)
        for row in rows_of(columns):
            if value_of(both(*constraints), row) is False:
                continue
            names = [name for name, its in takers.items() if any(value_of(filters[it], row) for it in its)]
            self.assertEqual([sorted(it.takers) for it in division.pieces if is_in(it.codes, row)], [sorted(names)])
            self.check_parts(division, row)

    def check_parts(self, division: Division, row: dict[Any, int | None]) -> None:
        """Checks that the row is also in one of the parts that are shown to an operator."""
        parts = [part for piece in division.pieces if is_in(piece.codes, row) for part, _ in division.parts(piece)]
        self.assertEqual(sum(is_in(it, row) for it in parts), 1)


class Picking(unittest.TestCase):
    def test_a_number_with_a_remainder(self) -> None:
        base = coding("a", False)
        base.low, base.high = -2**31, 2**31 - 1
        remainder = Remainders(base, 7)
        for low, high, wanted in (100, 10**6, 3), (-10**6, -50, -4), (-3, 3, -2), (5, 5, 5):
            codes = {base: (((low, high),), False), remainder: (((wanted, wanted),), True)}
            with self.subTest((low, high, wanted)):
                found = next(picking.numbers_in(codes[base][0], {7: codes[remainder][0]}))
                self.assertTrue(low <= found <= high)
                self.assertEqual(ranges.remainder(found, 7), wanted)

    def test_no_number_has_it(self) -> None:
        self.assertEqual(list(picking.numbers_in(((1, 2),), {7: ((5, 5),)})), [])

    def test_near_zero(self) -> None:
        for found, number in (((-5, 5),), 0), (((3, 9), (-2, -1)), -1), (((7, 9),), 7):
            self.assertEqual(next(picking.numbers_in(found, {})), number)


if __name__ == "__main__":
    unittest.main()
