"""Functions of dates and timestamps that preserve the order: comparing the result with a constant amounts to comparing
the argument."""

import math
from dataclasses import replace
from fractions import Fraction
from typing import Callable, Sequence

from pgshard_tools.judging import comparing, points, wholes
from pgshard_tools.judging.arithmetic import Failing
from pgshard_tools.judging.formulas import Formula, Subject, both, either, negation, tested
from pgshard_tools.judging.operands import DayOf, Derived, Operand, Ref, Value
from pgshard_tools.judging.points import DAY, GREATEST, LEAST, Point, finite
from pgshard_tools.judging.signatures import INFINITE_PARTS

TYPES = ("date", "timestamp")
# The least and the greatest number of each part.
BOUNDS = {"month": (1, 12), "day": (1, 31), "dow": (0, 6), "isodow": (1, 7), "doy": (1, 366), "quarter": (1, 4),
          "week": (1, 53), "hour": (0, 23), "minute": (0, 59)}
BOUNDS_OF_TIME = {"hour": (0, 24), "minute": (0, 59)}
UNITS = {"second": 1_000_000, "minute": 60_000_000, "hour": 3_600_000_000, "day": DAY}
MONTHS = {"month": 1, "quarter": 3, "year": 12}
# 2000-01-03 was a Monday.
MONDAY = 2


def subject_of(operand: Operand) -> Subject | None:
    """Returns the subject of a date or a timestamp."""
    match operand:
        case Ref(subject=subject, type=type) if type in TYPES:
            return subject
        case Derived(ref=ref) if ref.type in TYPES:
            return ref.subject
        case DayOf(subject=subject):
            return subject
    return None


def type_of(operand: Operand) -> str:
    return "date" if isinstance(operand, DayOf) else operand.type if isinstance(operand, Ref) else (
        operand.ref.type if isinstance(operand, Derived) else "")


def compared(form: str, op: str, operand: Operand, point: Point) -> Formula:
    """Returns a comparison of the argument with a point of its type."""
    return comparing.with_constant(form, op, operand, Value(type_of(operand), point))


def never(form: str, operand: Operand) -> Formula:
    """Returns FALSE, or NULL if the argument is: nothing is below -infinity."""
    return compared(form, "<", operand, LEAST)


def is_last(form: str, operand: Operand) -> Formula:
    """Returns whether it is the last timestamp, for which arithmetic fails."""
    return compared(form, "=", operand, finite(points.LAST_TIME))


def is_infinite(form: str, operand: Operand) -> Formula:
    return either(compared(form, "=", operand, LEAST), compared(form, "=", operand, GREATEST))


def derived(form: str, operand: Operand, ref: Ref, below: Callable[[Fraction], Point | None],
            up_to: Callable[[Fraction], Point | None]) -> Derived:
    """Returns a function that preserves the order, including infinity. `below` gives the first argument for which the
    result is not below a number, and `up_to` the first one for which it is above the number."""

    def means(_: Ref, op: str, constant: Value) -> Formula | None:
        point = constant.value
        if not isinstance(point, Point):
            return None
        if not point.is_finite:
            return compared(form, op, operand, point)
        first, last = below(point.value), up_to(point.value)
        if first is None or last is None:
            return None
        if op == "=":
            if first >= last:
                return never(form, operand)
            return both(negation(compared(form, "<", operand, first)), compared(form, "<", operand, last))
        return compared(form, "<", operand, first if op == "<" else last)

    return Derived(ref, means)


def part(form: str, name: str, operand: Operand, ref: Ref) -> Operand:
    """Reads a part of a date, a timestamp or a time. Its column is NULL if the argument is. For infinity, cyclic parts
    are NULL, and the others are infinite."""
    subject = subject_of(operand)
    if subject is None:
        found = BOUNDS_OF_TIME.get(name) if isinstance(operand, Ref) and operand.type == "time" else None
        return ref if found is None else bounded(ref, found)
    if name == "year":
        return year(form, operand, ref)
    if name in INFINITE_PARTS:
        return ref
    known = ref if name not in BOUNDS else bounded(ref, BOUNDS[name])
    return Ref(replace(known.subject, is_total=False), known.type)


def where_null(form: str, operand: Operand, null_of: comparing.NullOf) -> Formula:
    """Returns when a cyclic part is NULL: if the argument is NULL or infinite."""
    subject = subject_of(operand)
    assert subject is not None
    return tested("TRUE", either(null_of(subject), is_infinite(form, operand)))


def bounded(ref: Ref, bounds: tuple[int, int]) -> Ref:
    return Ref(replace(ref.subject, bounds=bounds), ref.type)


def year(form: str, operand: Operand, ref: Ref) -> Derived:
    """Reads the year; -1 is followed by 1."""
    unit = 1 if type_of(operand) == "date" else DAY

    def begin(number: int) -> Point:
        # The year before 1 is 0 in days_of, and -1 on the server.
        return finite(unit * points.days_of(number if number > 0 else 1 if number == 0 else number + 1, 1, 1))

    found = derived(form, operand, ref, lambda it: begin(math.ceil(it)), lambda it: begin(math.floor(it) + 1))
    return replace(found, too_large=is_infinite(form, operand))


def truncated(form: str, unit: str, operand: Operand, ref: Ref, failing: Failing) -> Operand:
    """Reads date_trunc of a timestamp. It fails if the unit begins before the first timestamp, and for the last
    timestamp."""
    if unit not in UNITS and unit not in MONTHS and unit != "week":
        failing.note(form, None, ref.subject.columns)
        return ref
    first = last_begin(unit, Fraction(points.FIRST_TIME))
    if first < points.FIRST_TIME:
        early = compared(form, "<", operand, finite(next_begin(unit, first)))
        failing.note(form, both(negation(compared(form, "<=", operand, LEAST)), early), ref.subject.columns)
    failing.note(form, is_last(form, operand), ref.subject.columns)

    def below(number: Fraction) -> Point:
        begin = last_begin(unit, number)
        return finite(begin if begin == number else next_begin(unit, begin))

    return derived(form, operand, ref, below, lambda it: finite(next_begin(unit, last_begin(unit, it))))


def last_begin(unit: str, number: Fraction) -> int:
    """Returns the beginning of the unit that contains a moment."""
    if unit in UNITS:
        return math.floor(number / UNITS[unit]) * UNITS[unit]
    days = math.floor(number / DAY)
    if unit == "week":
        return ((days - MONDAY) // 7 * 7 + MONDAY) * DAY
    year_of, month, _ = points.date_of(days)
    months = (year_of * 12 + month - 1) // MONTHS[unit] * MONTHS[unit]
    return points.days_of(months // 12, months % 12 + 1, 1) * DAY


def next_begin(unit: str, begin: int) -> int:
    """Returns the beginning of the next unit."""
    if unit in UNITS:
        return begin + UNITS[unit]
    if unit == "week":
        return begin + 7 * DAY
    year_of, month, _ = points.date_of(begin // DAY)
    months = year_of * 12 + month - 1 + MONTHS[unit]
    return points.days_of(months // 12, months % 12 + 1, 1) * DAY


def as_timestamp(form: str, operand: Operand, ref: Ref, failing: Failing) -> Operand:
    """Reads a date as its midnight. It fails for dates that are not timestamps."""
    end = points.LAST_READ // DAY + 1
    late = both(negation(compared(form, "<", operand, finite(end))), compared(form, "<", operand, GREATEST))
    failing.note(form, late, ref.subject.columns)

    def days(number: Fraction) -> Point:
        return finite(-(-number // DAY))

    return derived(form, operand, ref, days, lambda it: finite(it // DAY + 1))


def as_date(form: str, operand: Derived, ref: Ref) -> Operand:
    """Reads the date of a function of a timestamp."""
    return derived(
        form, operand, ref, lambda it: finite(math.ceil(it) * DAY), lambda it: finite((math.floor(it) + 1) * DAY))


def moved(form: str, operand: Operand, steps: Sequence[int], ref: Ref, failing: Failing) -> Operand:
    """Reads a date or timestamp moved by this many days or microseconds, in one or two steps. It fails if a step leads
    beyond the limits of the type."""
    is_date = type_of(operand) == "date"
    low, high = (points.FIRST_DAY, points.LAST_DAY) if is_date else (points.FIRST_TIME, points.LAST_READ)
    by = 0
    for step in steps:
        by += step
        past = either(
            both(negation(compared(form, "<=", operand, LEAST)), compared(form, "<", operand, finite(low - by))),
            both(negation(compared(form, "<=", operand, finite(high - by))), compared(form, "<", operand, GREATEST)))
        failing.note(form, past, ref.subject.columns)
    return derived(form, operand, ref, lambda it: finite(it - by), lambda it: after(operand, it - by))


def after(operand: Operand, number: Fraction) -> Point:
    """Returns the first day, or microsecond, after a number."""
    return finite(math.floor(number) + 1)


def days_since(form: str, operand: Operand, begin: Point, ref: Ref, failing: Failing) -> Operand:
    """Reads the number of days from one date to another, which fails if one of them is infinite."""
    failing.note(form, is_infinite(form, operand), ref.subject.columns)
    return derived(form, operand, ref, lambda it: finite(it + begin.value), lambda it: after(operand, it + begin.value))


def steps_of(text: str | None) -> tuple[int, ...] | None:
    """Returns the microseconds that an interval adds: first those of its days, if it has any, then those of its time.
    Returns None for an interval with months, whose length varies."""
    try:
        months, days, clock = wholes.parts(text or "")
    except ValueError:
        return None
    return None if months else tuple(it for it in (days, clock) if it) or (0,)
