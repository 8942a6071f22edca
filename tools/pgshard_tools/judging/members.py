"""Formulas for whether the result of some steps is in some ranges, in terms of the column with which the steps begin.

Each formula is NULL exactly if the column is, and each function explains why its result is exact.
"""

import math
from typing import Sequence

from pgshard_tools.judging import ranges, steps
from pgshard_tools.judging.formulas import Compare, Formula, Masked, Not, Remainder, Subject, both, either, negation
from pgshard_tools.judging.points import finite
from pgshard_tools.judging.ranges import Ranges
from pgshard_tools.judging.server_types import INTEGERS
from pgshard_tools.judging.steps import END, Absolute, Mask, Modulo, Quotient, Shift, Step, Times

# Remainders by a greater modulus are not enumerated, nor are more ranges than this made from one.
MOST_REMAINDERS = 4096
MOST_RANGES = 1000


class TooWide(Exception):
    """A set of numbers that would need too many ranges."""


def member(subject: Subject, done: Sequence[Step], found: Ranges) -> Formula:
    """Returns whether the result is in the ranges."""
    if not done:
        return within(subject, found)
    if is_of_bits(subject, done):
        return masked(subject, done[:-1], done[-1].mask, found)  # type: ignore[union-attr]
    modulus = steps.modulus_of(done)
    if modulus is not None and modulus <= MOST_REMAINDERS:
        kept = ranges.of_numbers(
            it for it in range(1 - modulus, modulus) if steps.contains(found, steps.applied(done, it)))
        return Remainder(subject, modulus, kept)
    before, last = done[:-1], done[-1]
    match last:
        case Modulo(modulus):
            return residue(subject, before, modulus, ranges.intersection(found, [(1 - modulus, modulus - 1)]))
        case Mask(mask):
            return masked(subject, before, mask, ranges.intersection(found, [(0, mask)]))
        case steps.Lookup():
            raise TooWide
    return member(subject, before, last.before(found))


def is_of_bits(subject: Subject, done: Sequence[Step]) -> bool:
    """Returns whether the steps mask the column, or a shifted column. A mask of the last few bits is a remainder."""
    *before, last = done
    if not isinstance(last, Mask) or last.mask == 0:
        return False
    is_low = last.mask & (last.mask + 1) == 0
    if not before:
        return not is_low or last.mask >= MOST_REMAINDERS
    is_shifted = len(before) == 1 and isinstance(before[0], Shift)
    return is_shifted and last.mask.bit_length() + shifted_by(before[0]) < width_of(subject)


def shifted_by(step: Step) -> int:
    return step.bits if isinstance(step, Shift) else 0


def width_of(subject: Subject) -> int:
    """Returns the number of bits of an integer column."""
    return INTEGERS[subject.type][0]


def within(subject: Subject, found: Ranges) -> Formula:
    """Returns whether the column itself is in the ranges."""
    least = -(2 ** (width_of(subject) - 1))
    inside = ranges.intersection(found, [(least, -least - 1)])
    if len(inside) > MOST_RANGES:
        raise TooWide
    parts = []
    for low, high in inside:
        at_most = Compare(subject, "<=", finite(high))
        is_up = high == -least - 1
        is_down = low == least
        above = Not(Compare(subject, "<", finite(low)))
        parts.append(above if is_up else at_most if is_down else both(above, at_most))
    # No column is below the least number of its type.
    return either(*parts) if parts else Compare(subject, "<", finite(least))


def residue(subject: Subject, done: Sequence[Step], modulus: int, found: Ranges) -> Formula:
    """Returns whether the remainder of the result, which truncates toward zero, is in the ranges."""
    if not done:
        return residue_of_column(subject, modulus, found)
    before, last = done[:-1], done[-1]
    match last:
        case Absolute():
            # |y| % n = |y % n|.
            return residue(subject, before, modulus, last.before(found))
        case Times(-1):
            return residue(subject, before, modulus, steps.negative(found))
        case Quotient(divisor):
            # y = q * d * n + r, where both terms have the sign of y, so (y / d) % n = r / d.
            wide = abs(divisor) * modulus
            return residue(subject, before, wide, ranges.intersection(last.before(found), [(1 - wide, wide - 1)]))
        case Shift(bits):
            return residue_of_shift(subject, before, last, modulus << bits, found, modulus)
        case Times(factor):
            return residue_of_product(subject, before, factor, modulus, found)
        case steps.Add(number):
            return residue_of_sum(subject, done, number, modulus, found)
        case Modulo(inner):
            return residue_of_bounded(subject, done, 1 - inner, inner - 1, modulus, found)
        case Mask(mask):
            return residue_of_bounded(subject, done, 0, mask, modulus, found)
    raise TooWide


def residue_of_column(subject: Subject, modulus: int, found: Ranges) -> Formula:
    """The remainder of the column. By a number beyond the column's range it is the column itself, except that the least
    number has the remainder 0 by its opposite."""
    if len(found) > MOST_RANGES:
        raise TooWide
    end = 2 ** (width_of(subject) - 1)
    if modulus < end:
        return Remainder(subject, modulus, found)
    has_least = modulus == end and steps.contains(found, 0)
    return within(subject, ranges.union(found, [(-end, -end)] if has_least else []))


def residue_of_shift(subject: Subject, before: Sequence[Step], shift: Shift, wide: int, found: Ranges,
                     modulus: int) -> Formula:
    """y = q * 2^s * n + r, where both terms have the sign of y, so y >> s = q * n + (r >> s). r >> s is from -n to n -
    1. Its remainder by n is itself, but 0 for -n; it has the sign of y, or is 0."""
    values = ranges.union(found, [(-modulus, -modulus)] if steps.contains(found, 0) else [])
    return residue(subject, before, wide, ranges.intersection(shift.before(values), [(1 - wide, wide - 1)]))


def residue_of_product(subject: Subject, before: Sequence[Step], factor: int, modulus: int, found: Ranges) -> Formula:
    """(y * a) % n depends on the remainder of y by n / gcd(a, n), since a times that modulus is a multiple of n. The
    product of a and the remainder has the sign of y * a, or is 0."""
    short = modulus // math.gcd(factor, modulus)
    if short > MOST_REMAINDERS:
        raise TooWide
    kept = ranges.of_numbers(
        it for it in range(1 - short, short) if steps.contains(found, ranges.remainder(it * factor, modulus)))
    return residue(subject, before, short, kept)


def residue_of_sum(subject: Subject, done: Sequence[Step], number: int, modulus: int, found: Ranges) -> Formula:
    """The remainder of y + a has the sign of y + a, and otherwise depends on the remainder of y: y + a is congruent to
    the remainder v exactly if y is congruent to v - a. So the two signs are treated separately."""
    is_above = member(subject, done, ((0, END),))
    above = classes(ranges.intersection(found, [(0, modulus - 1)]), number, modulus)
    below = classes(ranges.intersection(found, [(1 - modulus, 0)]), number, modulus)
    before = done[:-1]
    return either(
        both(is_above, residue(subject, before, modulus, above)),
        both(negation(is_above), residue(subject, before, modulus, below)))


def classes(found: Ranges, number: int, modulus: int) -> Ranges:
    """Returns the remainders, truncated toward zero, of the numbers that are congruent to v - a for some v in the
    ranges."""
    plain: list[tuple[int, int]] = []
    for low, high in found:
        begin = (low - number) % modulus
        end = begin + high - low
        plain.extend([(begin, min(end, modulus - 1)), (0, end - modulus)])
    return representatives(ranges.normal(plain), modulus)


def representatives(plain: Ranges, modulus: int) -> Ranges:
    """Returns the remainders, truncated toward zero, that are congruent to numbers from 0 to n - 1: these, and the same
    minus n."""
    below = ranges.intersection([(low - modulus, high - modulus) for low, high in plain], [(1 - modulus, -1)])
    return ranges.union(plain, below)


def residue_of_bounded(subject: Subject, done: Sequence[Step], low: int, high: int, modulus: int,
                       found: Ranges) -> Formula:
    """A result between two numbers is examined for each multiple of the modulus."""
    first, last = -(-low // modulus) if low < 0 else 0, high // modulus
    if (last - first + 1) * len(found) > MOST_RANGES:
        raise TooWide
    above, below = ranges.intersection(found, [(0, modulus)]), ranges.intersection(found, [(-modulus, 0)])
    kept = [(a + it * modulus, b + it * modulus) for it in range(0, last + 1) for a, b in above]
    kept += [(a - it * modulus, b - it * modulus) for it in range(0, 1 - first) for a, b in below]
    return member(subject, done, ranges.intersection(kept, [(low, high)]))


def masked(subject: Subject, done: Sequence[Step], mask: int, found: Ranges) -> Formula:
    """Returns whether the bits of the result that are in the mask are in the ranges."""
    is_low = mask & (mask + 1) == 0
    found = ranges.intersection(found, [(0, mask)])
    if not done and (not is_low or mask >= MOST_REMAINDERS):
        return masked_column(subject, mask, found)
    if is_of_bits(subject, [*done, Mask(mask)]):
        bits = shifted_by(done[0])
        return Masked(subject, mask << bits, tuple((low << bits, high << bits) for low, high in found))
    if not is_low:
        raise TooWide
    # The last k bits of a number are its remainder by 2^k, or that plus 2^k if it is negative.
    return residue(subject, done, mask + 1, representatives(found, mask + 1))


def masked_column(subject: Subject, mask: int, found: Ranges) -> Formula:
    """The bits of the column. If a mask is wider, all bits from the sign bit on equal the sign bit."""
    last = width_of(subject) - 1
    low, high = mask & (2**last - 1), mask >> last << last
    if high == 0:
        return Masked(subject, mask, found)
    is_negative = Compare(subject, "<", finite(0))
    found_below = ranges.intersection([(a - high, b - high) for a, b in found], [(0, low)])
    return either(
        both(is_negative, member(subject, (Mask(low),), found_below)),
        both(Not(is_negative), member(subject, (Mask(low),), found)))
