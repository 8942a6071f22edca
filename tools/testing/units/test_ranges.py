"""Tests sets of numbers that are stored as ranges against Python's sets."""

import random
import unittest
from fractions import Fraction

from pgshard_tools.judging import ranges
from pgshard_tools.judging.bits import bits_in, runs_of

CHANCE = random.Random(5)


def some() -> set[int]:
    return {CHANCE.randrange(-20, 21) for _ in range(CHANCE.randrange(30))}


class Sets(unittest.TestCase):
    def test_operations(self) -> None:
        for _ in range(300):
            one, other = some(), some()
            a, b = ranges.of_numbers(one), ranges.of_numbers(other)
            self.assertEqual(set(ranges.numbers_of(ranges.union(a, b))), one | other)
            self.assertEqual(set(ranges.numbers_of(ranges.intersection(a, b))), one & other)
            self.assertEqual(set(ranges.numbers_of(ranges.complement(a, -20, 20))), set(range(-20, 21)) - one)
            self.assertEqual(ranges.size(a), len(one))
            self.assertTrue(all(high + 1 < low for (_, high), (low, _) in zip(a, a[1:])))

    def test_compared(self) -> None:
        for number in Fraction(0), Fraction(7, 2), Fraction(-7, 2), Fraction(5), Fraction(-9), Fraction(99):
            for op, holds in ("=", lambda it: it == number), ("<", lambda it: it < number), ("<=", lambda it: it <= number):
                found = ranges.compared(op, number, -8, 8)
                self.assertEqual(set(ranges.numbers_of(found)), {it for it in range(-8, 9) if holds(it)}, (op, number))

    def test_remainder(self) -> None:
        """Division truncates toward zero, as in SELECT -7 % 3."""
        self.assertEqual([ranges.remainder(it, 3) for it in (-7, -6, -1, 0, 1, 7)], [-1, 0, -1, 0, 1, 1])


class Bits(unittest.TestCase):
    def test_between(self) -> None:
        for low in range(-17, 18):
            for high in range(low, 18):
                found = set(ranges.numbers_of(bits_in(low, high, 1, 2)))
                self.assertLessEqual({it // 2 % 4 for it in range(low, high + 1)}, found)
                if high - low < 6:
                    self.assertEqual({it // 2 % 4 for it in range(low, high + 1)}, found)

    def test_runs(self) -> None:
        self.assertEqual(runs_of([0b1111_0000]), [(4, 7)])
        self.assertEqual(runs_of([0b1111_0000, 0b0011_1100]), [(6, 7), (4, 5), (2, 3)])
        self.assertEqual(runs_of([0b1000_0001]), [(7, 7), (0, 0)])


if __name__ == "__main__":
    unittest.main()
