"""Picks server rows that may be in a region: a code for each column, and the values with these codes."""

import itertools
import math
from collections.abc import Iterator, Sequence
from typing import Any

from pgshard_tools.judging import ranges, rows
from pgshard_tools.judging.codings import Coding, Remainders
from pgshard_tools.judging.explaining import Codes
from pgshard_tools.judging.ranges import Ranges
from pgshard_tools.judging.rows import Row
from pgshard_tools.judging.trials import Read

# How many numbers are tried to find one with the remainders of a region, and how many rows of each region.
MOST_NUMBERS = 20_000
MOST_ROWS = 6


def rows_in(read: Read, codes: Codes) -> list[Row]:
    """Returns rows that may be in a region, as constants by column name."""
    picked = codes_in(codes)
    if picked is None:
        return []
    choices = {it["name"]: rows.values_of(it, picked) for it in read.shares.table["columns"]}
    combined = itertools.islice(itertools.product(*choices.values()), MOST_ROWS)
    return [dict(zip(choices, values)) for values in combined]


def codes_in(codes: Codes) -> dict[Any, Any] | None:
    """Returns one code for each column, with None for NULL; or None if no code with the remainders is found."""
    found: dict[Any, Any] = {}
    for coded, (its, may_be_null) in codes.items():
        if isinstance(coded, Remainders):
            continue
        if not its:
            found[coded] = None
            continue
        by_modulus = {other.modulus: known for other, (known, _) in codes.items()
                      if isinstance(other, Remainders) and other.base is coded}
        number = next(numbers_in(its, by_modulus), None)
        if number is None and not may_be_null:
            return None
        found[coded] = number if number is None else plain_code(coded, its, number)
    return found


def plain_code(coded: Coding, found: Ranges, number: int) -> int:
    """Returns the code itself, unless it has no value and its neighbour in the region has one."""
    if coded.value(number) is not None:
        return number
    return next((it for it in (number + 1, number - 1) if in_ranges(found, it) and coded.value(it) is not None), number)


def numbers_in(found: Ranges, by_modulus: dict[int, Ranges]) -> Iterator[int]:
    """Yields numbers in some ranges that have the remainders, those near zero first."""
    if not by_modulus:
        yield min((nearest(it) for it in found), key=lambda number: (abs(number), -number))
        return
    period = min(2 * math.lcm(*by_modulus), MOST_NUMBERS)
    for number in itertools.islice(near_zero(found, period), MOST_NUMBERS):
        if all(in_ranges(its, ranges.remainder(number, modulus)) for modulus, its in by_modulus.items()):
            yield number


def near_zero(found: Ranges, period: int) -> Iterator[int]:
    """Yields one period of numbers of each range, those near zero first."""
    for low, high in sorted(found, key=lambda it: abs(nearest(it))):
        begin = nearest((low, high))
        yield from range(begin, min(high, begin + period) + 1)
        yield from range(begin - 1, max(low, begin - period) - 1, -1)


def nearest(piece: Sequence[int]) -> int:
    """Returns the number in a range that is nearest to zero."""
    return max(piece[0], min(piece[1], 0))


def in_ranges(found: Ranges, number: int) -> bool:
    return any(low <= number <= high for low, high in found)
