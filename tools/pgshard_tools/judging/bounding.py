"""The bounds of a column according to the constraints that the server enforces: the least and the greatest number for
which none of them is FALSE."""

from fractions import Fraction
from typing import Iterable

from pgshard_tools.judging.arithmetic import Bounds, type_bounds
from pgshard_tools.judging.formulas import And, Compare, Const, Formula, Not, Or, Subject
from pgshard_tools.judging.points import Point

# The ends of an interval, each None if it is not known; or None if there is no number at all.
Interval = tuple[Fraction | None, Fraction | None]
EVERYTHING: Interval = (None, None)


def bounds_of(constraints: Iterable[Formula], subject: Subject) -> Bounds:
    """Returns the ends of the column, or None if one of them is not known."""
    found: Interval | None = type_bounds(subject) or EVERYTHING
    for constraint in constraints:
        found = common(found, where(constraint, subject, True))
    if found is None:
        return Fraction(0), Fraction(0)
    low, high = found
    return None if low is None or high is None else (low, high)


def where(part: Formula, subject: Subject, is_true: bool) -> Interval | None:
    """Returns an interval that contains the column if the column is not NULL and a formula may be TRUE, or may be
    FALSE. What depends on another column may be either."""
    match part:
        case Not():
            return where(part.part, subject, not is_true)
        case And() | Or():
            found = [where(it, subject, is_true) for it in part.parts]
            is_joint = isinstance(part, And) == is_true
            joint = found[0]
            for it in found[1:]:
                joint = common(joint, it) if is_joint else hull(joint, it)
            return joint
        case Const():
            return EVERYTHING if part.value is None or part.value == is_true else None
        case Compare() if part.subject == subject and isinstance(part.value, Point) and part.value.is_finite:
            return of_comparison(part.op, part.value.value, is_true)
    return EVERYTHING


def of_comparison(op: str, number: Fraction, is_true: bool) -> Interval:
    if op == "=":
        return (number, number) if is_true else EVERYTHING
    return (None, number) if is_true else (number, None)


def common(one: Interval | None, other: Interval | None) -> Interval | None:
    """Returns the intersection of two intervals."""
    if one is None or other is None:
        return None
    lows = [it for it in (one[0], other[0]) if it is not None]
    highs = [it for it in (one[1], other[1]) if it is not None]
    low, high = max(lows, default=None), min(highs, default=None)
    return None if low is not None and high is not None and low > high else (low, high)


def hull(one: Interval | None, other: Interval | None) -> Interval | None:
    """Returns the least interval that contains two others."""
    if one is None or other is None:
        return other if one is None else one
    low = None if one[0] is None or other[0] is None else min(one[0], other[0])
    high = None if one[1] is None or other[1] is None else max(one[1], other[1])
    return low, high
