"""Bits of columns: each run of bits that the masks of a table distinguish gets a column of its own.

The bits of a number below its sign can be combined arbitrarily, so such columns are independent of each other, and a
mask of any width becomes a few comparisons of them.
"""

from typing import Iterable

from pgshard_tools.judging import formulas, ranges
from pgshard_tools.judging.formulas import Compare, Formula, Masked, Subject, both, either, negation
from pgshard_tools.judging.points import finite
from pgshard_tools.judging.ranges import Ranges

TYPE = "bits"


def expanded(listed: list[Formula | None]) -> list[Formula | None]:
    """Returns the formulas with comparisons of such columns instead of masks."""
    masks: dict[Subject, set[int]] = {}
    for formula in listed:
        for leaf in formulas.leaves_of(formula) if formula is not None else ():
            if isinstance(leaf, Masked):
                masks.setdefault(leaf.subject, set()).add(leaf.mask)
    runs = {subject: runs_of(found) for subject, found in masks.items()}

    def change(leaf: formulas.Leaf) -> Formula:
        return of_masked(leaf, runs[leaf.subject]) if isinstance(leaf, Masked) else leaf

    return [None if it is None else formulas.replaced(it, change) for it in listed]


def runs_of(masks: Iterable[int]) -> list[tuple[int, int]]:
    """Returns runs of bits, each from the first to the last bit, highest first. No mask contains a run only in part."""
    listed = list(masks)
    last = max(it.bit_length() for it in listed)
    runs: list[tuple[int, int]] = []
    for bit in reversed(range(last)):
        signs = [it >> bit & 1 for it in listed]
        if not any(signs):
            continue
        is_next = runs and runs[-1][0] == bit + 1 and signs == [it >> bit + 1 & 1 for it in listed]
        if is_next:
            runs[-1] = bit, runs[-1][1]
        else:
            runs.append((bit, bit))
    return runs


def subject_of(base: Subject, low: int, high: int) -> Subject:
    """Returns the subject for a run of bits. Its modifier is the length of the run."""
    mask = 2 ** (high + 1) - 2**low
    return Subject(
        sql=f"({base.sql} & {mask})", type=TYPE, columns=base.columns, modifier=high - low + 1,
        is_strict=base.is_strict,
        is_total=base.is_total, sides=(base.sql,), bits_below=low)


def of_masked(leaf: Masked, runs: list[tuple[int, int]]) -> Formula:
    """Returns whether the bits of the mask are in the ranges, as comparisons of its runs, highest first."""
    kept = [(low, high) for low, high in runs if leaf.mask >> low & 1]
    parts = []
    for low, high in ranges.intersection(leaf.ranges, [(0, leaf.mask)]):
        parts.append(both(negation(at_most(leaf.subject, kept, low - 1)), at_most(leaf.subject, kept, high)))
    first = subject_of(leaf.subject, *kept[0])
    # Bits are never below zero. This is NULL if the column is, as are the other parts here.
    never = Compare(first, "<", finite(0))
    return either(never, *parts)


def at_most(base: Subject, runs: list[tuple[int, int]], number: int) -> Formula:
    """Returns whether the bits in the runs are at most a number: either those in the first run are less, or they are
    equal and the others are at most the rest of the number."""
    subject = subject_of(base, *runs[0])
    if number < 0:
        return Compare(subject, "<", finite(0))
    low, high = runs[0]
    if number >> (high + 1):
        # The number has a bit above all of these.
        return negation(Compare(subject, "<", finite(0)))
    own = number >> low
    rest = number - (own << low)
    if len(runs) == 1:
        return Compare(subject, "<=", finite(own))
    others = at_most(base, runs[1:], rest)
    return either(Compare(subject, "<", finite(own)), both(Compare(subject, "=", finite(own)), others))


def bits_in(low: int, high: int, below: int, width: int) -> Ranges:
    """Returns the values of some bits of the numbers between two ends."""
    first, last, count = low >> below, high >> below, 1 << width
    if last - first + 1 >= count:
        return ((0, count - 1),)
    begin, end = first % count, last % count
    return ((begin, end),) if begin <= end else ranges.normal([(0, end), (begin, count - 1)])
