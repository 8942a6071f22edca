"""Tests arithmetic of one column against the same arithmetic of small numbers, one by one, in Python's integers."""

import itertools
import unittest

from pgshard_tools.judging import members, steps
from pgshard_tools.judging.formulas import And, Compare, Const, Formula, Is, Masked, Not, Or, Remainder, Subject
from pgshard_tools.judging.ranges import numbers_of, of_numbers
from pgshard_tools.judging.steps import Absolute, Add, Mask, Modulo, Quotient, Shift, Times

# The numbers of a column that are tried; judge considers all values of a smallint.
NUMBERS = range(-70, 71)
SUBJECT = Subject(sql="c", type="int2", columns=("c",), is_column=True)
EACH = [Add(3), Add(-5), Times(2), Times(-1), Times(-3), Times(0), Absolute(), Quotient(4), Quotient(-3), Shift(2),
        Modulo(6), Modulo(8), Mask(5), Mask(7), Mask(12)]


def toward_zero(one: int, other: int) -> int:
    return int(one / other)


def result(listed: list[steps.Step], number: int) -> int:
    """Computes the result as PostgreSQL's documentation defines each operator: / and % truncate toward zero, >> keeps
    the sign."""
    for step in listed:
        match step:
            case Add(other):
                number += other
            case Times(other):
                number *= other
            case Absolute():
                number = -number if number < 0 else number
            case Quotient(other):
                number = toward_zero(number, other)
            case Shift(bits):
                number = (number - number % 2**bits) // 2**bits
            case Modulo(other):
                number -= other * toward_zero(number, other)
            case Mask(mask):
                bits = [(number % 2**16) // 2**place % 2 for place in range(16)]
                number = sum(2**place for place, bit in enumerate(bits) if bit and mask // 2**place % 2)
    return number


def holds(formula: Formula, number: int) -> bool:
    """Returns whether a formula is true for a number of the column."""
    match formula:
        case Const():
            return bool(formula.value)
        case Not():
            return not holds(formula.part, number)
        case And():
            return all(holds(it, number) for it in formula.parts)
        case Or():
            return any(holds(it, number) for it in formula.parts)
        case Is():
            return holds(formula.part, number)
        case Compare():
            return {"<": number < formula.value.value, "<=": number <= formula.value.value,
                    "=": number == formula.value.value}[formula.op]
        case Remainder():
            return result([Modulo(formula.modulus)], number) in numbers_of(formula.ranges)
        case Masked():
            return any(low <= result([Mask(formula.mask)], number) <= high for low, high in formula.ranges)
    raise TypeError(formula)


class Members(unittest.TestCase):
    def check(self, listed: list[steps.Step]) -> None:
        found = sorted({result(listed, it) for it in NUMBERS})
        middle = found[len(found) // 2]
        for wanted in ([middle], [it for it in found if it <= middle], [it for it in found if it % 3 == 0]):
            try:
                formula = members.member(SUBJECT, listed, of_numbers(wanted))
            except members.TooWide:
                continue
            wrong = [it for it in NUMBERS if holds(formula, it) != (result(listed, it) in wanted)]
            self.assertEqual(wrong, [], (listed, wanted))

    def test_steps(self) -> None:
        """Tests all pairs of steps, and some triples."""
        threes = list(itertools.product(EACH, repeat=3))
        for listed in [*itertools.product(EACH, repeat=1), *itertools.product(EACH, repeat=2), *threes[::11]]:
            with self.subTest(listed):
                self.check(list(listed))

    def test_without_going_through_remainders(self) -> None:
        """Tests the same by the rules for large moduli."""
        most, members.MOST_REMAINDERS = members.MOST_REMAINDERS, 2
        try:
            for listed in itertools.product(EACH, repeat=2):
                with self.subTest(listed):
                    self.check(list(listed))
        finally:
            members.MOST_REMAINDERS = most

    def test_bounds(self) -> None:
        for listed in itertools.product(EACH, repeat=2):
            low, high = steps.bounds(listed, -70, 70)
            self.assertTrue(all(low <= result(list(listed), it) <= high for it in NUMBERS), listed)

    def test_modulus(self) -> None:
        """Numbers with the same remainder have the same result."""
        for listed in itertools.product(EACH, repeat=2):
            modulus = steps.modulus_of(listed)
            if modulus is not None:
                for number in NUMBERS:
                    remainder = result([Modulo(modulus)], number)
                    self.assertEqual(result(list(listed), number), result(list(listed), remainder), listed)


if __name__ == "__main__":
    unittest.main()
