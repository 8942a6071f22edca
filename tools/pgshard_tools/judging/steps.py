"""Arithmetic of one column of whole numbers, step by step, each with a constant.

Each step defines its result for a number, and for which numbers the result is in some ranges. So a comparison of the
last result is one of the column itself, without enumerating the numbers.
"""

import math
from dataclasses import dataclass
from typing import Sequence, TypeAlias

from pgshard_tools.judging import ranges
from pgshard_tools.judging.ranges import Ranges

# No result of this many steps is beyond the ends: each makes a number longer by at most 64 bits.
MOST_STEPS = 12
END = 2**1024
ALL: Ranges = ((-END, END),)


@dataclass(frozen=True)
class Add:
    number: int

    def of(self, value: int) -> int:
        return value + self.number

    def before(self, found: Ranges) -> Ranges:
        return clipped([(low - self.number, high - self.number) for low, high in found])


@dataclass(frozen=True)
class Times:
    number: int

    def of(self, value: int) -> int:
        return value * self.number

    def before(self, found: Ranges) -> Ranges:
        if self.number == 0:
            return ALL if contains(found, 0) else ()
        factor = abs(self.number)
        turned = found if self.number > 0 else negative(found)
        return clipped([(-(-low // factor), high // factor) for low, high in turned])


@dataclass(frozen=True)
class Absolute:
    def of(self, value: int) -> int:
        return abs(value)

    def before(self, found: Ranges) -> Ranges:
        above = ranges.intersection(found, [(0, END)])
        return ranges.union(above, negative(above))


@dataclass(frozen=True)
class Quotient:
    """Division by a number other than 0, which truncates toward zero."""

    divisor: int

    def of(self, value: int) -> int:
        return divided(value, self.divisor)

    def before(self, found: Ranges) -> Ranges:
        by = abs(self.divisor)
        turned = found if self.divisor > 0 else negative(found)
        return clipped([
            (low * by if low > 0 else (low - 1) * by + 1, high * by + by - 1 if high >= 0 else high * by)
            for low, high in turned])


@dataclass(frozen=True)
class Shift:
    """A shift to the right, by a number from 0 to the bits of the type minus one; the sign is kept."""

    bits: int

    def of(self, value: int) -> int:
        return value >> self.bits

    def before(self, found: Ranges) -> Ranges:
        unit = 2**self.bits
        return clipped([(low * unit, high * unit + unit - 1) for low, high in found])


@dataclass(frozen=True)
class Modulo:
    """The remainder by a positive number, with the sign of the dividend."""

    modulus: int

    def of(self, value: int) -> int:
        return ranges.remainder(value, self.modulus)


@dataclass(frozen=True)
class Mask:
    """The bits that are also in another number, which is not negative."""

    mask: int

    def of(self, value: int) -> int:
        return value & self.mask


@dataclass(frozen=True)
class Lookup:
    """The combination of two results that depend on one remainder, for each remainder from 1 - modulus on."""

    modulus: int
    results: tuple[int, ...]

    def of(self, value: int) -> int:
        return self.results[ranges.remainder(value, self.modulus) + self.modulus - 1]


Monotone = Add | Times | Absolute | Quotient | Shift
Step: TypeAlias = Add | Times | Absolute | Quotient | Shift | Modulo | Mask | Lookup


def divided(one: int, other: int) -> int:
    """Returns the quotient, truncated toward zero."""
    quotient = abs(one) // abs(other)
    return quotient if (one < 0) == (other < 0) else -quotient


def applied(steps: Sequence[Step], value: int) -> int:
    for step in steps:
        value = step.of(value)
    return value


def clipped(found: Sequence[tuple[int, int]]) -> Ranges:
    return ranges.normal([(max(low, -END), min(high, END)) for low, high in found])


def negative(found: Ranges) -> Ranges:
    return ranges.normal([(-high, -low) for low, high in found])


def contains(found: Ranges, number: int) -> bool:
    return any(low <= number <= high for low, high in found)


def modulus_of(steps: Sequence[Step]) -> int | None:
    """Returns a number whose remainder determines the result, or None if there is none. The remainder itself has the
    same result, since it is its own remainder."""
    factor: int = 1
    for step in steps:
        match step:
            case Modulo() | Lookup():
                return factor * step.modulus
            case Mask():
                # In two's complement, numbers with the same remainder by 2^k have the same last k bits.
                return factor << step.mask.bit_length()
            case Quotient():
                # c = q * d * n + r, where both terms have the sign of c, so c / d = q * n + r / d.
                factor *= abs(step.divisor)
            case Times(-1) | Absolute():
                pass
            case _:
                return None
    return None


def bounds(steps: Sequence[Step], low: int, high: int) -> tuple[int, int]:
    """Returns two numbers between which all results are, for the numbers between two ends."""
    for step in steps:
        match step:
            case Add() | Times() | Quotient() | Shift():
                ends = step.of(low), step.of(high)
                low, high = min(ends), max(ends)
            case Absolute():
                low, high = 0 if low <= 0 <= high else min(abs(low), abs(high)), max(abs(low), abs(high))
            case Modulo(modulus):
                low, high = max(low, 1 - modulus) if low < 0 else 0, min(high, modulus - 1) if high > 0 else 0
            case Mask(mask):
                low, high = 0, mask
            case Lookup():
                low, high = min(step.results), max(step.results)
    return low, high


def common_modulus(moduli: Sequence[int]) -> int:
    return math.lcm(*moduli)
