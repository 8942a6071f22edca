"""The dimensions of an input with all their values, and a set of cases that covers each value of each dimension.

A case has one value of each dimension. All pairs of values of two dimensions would be far too many: texts and numbers
alone have 140,000. Therefore, the values of each dimension are divided into six bands, and the cases cover each pair of
bands of any two dimensions.
"""

import itertools
import random
from collections.abc import Sequence

BANDS = 6
SEED = 15

Row = dict[str, int]


def numbers() -> list[int]:
    """Returns the powers of two and of ten, their neighbours, and the same negated, as far as they can be read: the
    least bigint cannot, as docs/OUTPUT.md says."""
    powers = [2**exponent for exponent in range(64)] + [10**exponent for exponent in range(19)]
    near = {sign * power + more for power in powers for sign in (1, -1) for more in (-1, 0, 1)}
    return sorted(number for number in near if -2**63 < number < 2**63)


DIMENSIONS: dict[str, Sequence[int]] = {
    "text": range(301),
    "commands": range(1, 101),
    "columns": range(1, 101),
    "certificates": range(1, 65),
    "publications": range(1, 65),
    "subscriptions": range(1, 33),
    "list": range(1, 101),
    "limit": range(1, 101),
    "name": range(1, 64),
    "number": numbers(),
    "nesting": range(1, 65),
    "character": range(32, 127),
}


def rows() -> list[Row]:
    """Returns the cases. Each dimension goes through its values in random order, and then again, until the longest
    dimension ends. Each subscription has a publication of its own."""
    chance = random.Random(SEED)
    columns = {name: in_turn(chance, list(values), len(DIMENSIONS["number"])) for name, values in DIMENSIONS.items()}
    found = [{name: column[at] for name, column in columns.items()} for at in range(len(DIMENSIONS["number"]))]
    for row in found:
        row["subscriptions"] = min(row["subscriptions"], row["publications"])
    return found


def in_turn(chance: random.Random, values: list[int], count: int) -> list[int]:
    """Returns this many values: all of them in random order, and then again in another order."""
    found: list[int] = []
    while len(found) < count:
        found += chance.sample(values, len(values))
    return found[:count]


def band(name: str, value: int) -> int:
    """Returns the band of a value of a dimension."""
    values = DIMENSIONS[name]
    return values.index(value) * BANDS // len(values)


def missing_values(found: list[Row]) -> list[tuple[str, int]]:
    """Returns values that no case has."""
    return [(name, value) for name, values in DIMENSIONS.items() for value in set(values) - {row[name] for row in found}]


def missing_pairs(found: list[Row]) -> list[tuple[str, int, str, int]]:
    """Returns pairs of bands that no case has, except those with more subscriptions than publications."""
    met = {
        (one, band(one, row[one]), other, band(other, row[other]))
        for row in found for one, other in itertools.combinations(DIMENSIONS, 2)}
    return [
        (one, first, other, second) for one, other in itertools.combinations(DIMENSIONS, 2)
        for first in range(BANDS) for second in range(BANDS)
        if (one, first, other, second) not in met and is_possible(one, first, other, second)]


def is_possible(one: str, first: int, other: str, second: int) -> bool:
    """Returns whether a pair of bands is possible."""
    if (one, other) != ("publications", "subscriptions"):
        return True
    most = max(value for value in DIMENSIONS[one] if band(one, value) == first)
    return any(value <= most for value in DIMENSIONS[other] if band(other, value) == second)
