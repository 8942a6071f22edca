"""Sets of integers as ranges in ascending order, both ends included, with gaps between them."""

import math
from fractions import Fraction
from typing import Iterable, TypeAlias

Range: TypeAlias = tuple[int, int]
Ranges: TypeAlias = tuple[Range, ...]


def normal(ranges: Iterable[Range]) -> Ranges:
    """Returns the ranges sorted and joined, without empty ones."""
    joined: list[Range] = []
    for low, high in sorted(it for it in ranges if it[0] <= it[1]):
        if joined and low <= joined[-1][1] + 1:
            joined[-1] = (joined[-1][0], max(joined[-1][1], high))
        else:
            joined.append((low, high))
    return tuple(joined)


def union(one: Iterable[Range], other: Iterable[Range]) -> Ranges:
    return normal([*one, *other])


def complement(ranges: Iterable[Range], low: int, high: int) -> Ranges:
    """Returns the numbers between two ends that are in none of the ranges."""
    rest: list[Range] = []
    at = low
    for begin, end in ranges:
        rest.append((at, begin - 1))
        at = end + 1
    return normal([*rest, (at, high)])


def intersection(one: Iterable[Range], other: Iterable[Range]) -> Ranges:
    """Returns the numbers in both. Since ranges ascend, each is visited once."""
    first, second = normal(one), normal(other)
    found: list[Range] = []
    a = b = 0
    while a < len(first) and b < len(second):
        low, high = max(first[a][0], second[b][0]), min(first[a][1], second[b][1])
        if low <= high:
            found.append((low, high))
        if first[a][1] < second[b][1]:
            a += 1
        else:
            b += 1
    return tuple(found)


def compared(op: str, number: Fraction, low: int, high: int) -> Ranges:
    """Returns the integers between two ends that are = < or <= a number, which may be a fraction."""
    if op == "=":
        found = [(int(number), int(number))] if number == int(number) else []
        return intersection(found, [(low, high)])
    last = math.ceil(number) - 1 if op == "<" else math.floor(number)
    return normal([(low, min(last, high))])


def of_numbers(numbers: Iterable[int]) -> Ranges:
    return normal([(it, it) for it in numbers])


def size(ranges: Iterable[Range]) -> int:
    return sum(high - low + 1 for low, high in ranges)


def numbers_of(ranges: Iterable[Range]) -> list[int]:
    return [it for low, high in ranges for it in range(low, high + 1)]


def remainder(number: int, modulus: int) -> int:
    """Computes the server's %, which truncates toward zero: the result has the sign of the number."""
    return number % modulus if number >= 0 else -(-number % modulus)
