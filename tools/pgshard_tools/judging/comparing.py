"""Comparisons between operands, as formulas. Each function explains why its result is exact."""

from fractions import Fraction
from typing import Callable, Sequence, TypeAlias

from pgshard_tools.judging import members, points, ranges, steps
from pgshard_tools.judging.faults import Unread
from pgshard_tools.judging.formulas import (
    Compare,
    Const,
    Formula,
    IsNull,
    Not,
    Subject,
    both,
    chosen,
    compared,
    either,
    negation,
    same_truth,
    tested,
    unlike_truth,
)
from pgshard_tools.judging.operands import Choice, DayOf, Derived, Extreme, Operand, Ref, Truth, Value, Whole
from pgshard_tools.judging.points import Point, finite
from pgshard_tools.judging.server_types import LABELS, collation_sql, family, is_ordered

TURNED = {"=": "=", "<>": "<>", "<": ">", "<=": ">=", ">": "<", ">=": "<="}
UNKNOWN = Const(None)
# Returns the formula of `subject IS NULL`.
NullOf: TypeAlias = Callable[[Subject], Formula]


def comparison(form: str, op: str, one: Operand, other: Operand, null_of: NullOf) -> Formula:
    """Returns `one op other`, depending on the kinds of its sides. A constant is moved to the right."""
    if isinstance(one, Extreme):
        return of_extreme(form, op, one, other, null_of)
    if isinstance(other, Extreme):
        return of_extreme(form, TURNED[op], other, one, null_of)
    if isinstance(one, Choice):
        # A CASE or a similar expression has the value of one branch, so the comparison is made in each branch.
        return chosen(
            one.condition, comparison(form, op, one.one, other, null_of),
            comparison(form, op, one.other, other, null_of))
    if isinstance(other, Choice):
        return comparison(form, TURNED[op], other, one, null_of)
    if isinstance(one, Value) and not isinstance(other, Value):
        return comparison(form, TURNED[op], other, one, null_of)
    if isinstance(one, Truth) or isinstance(other, Truth):
        return truths(form, op, one, other)
    if isinstance(other, Value):
        return with_constant(form, op, one, other)
    left, right = as_ref(one), as_ref(other)
    if left is not None and right is not None:
        return of_two(form, op, left, right)
    raise Unread(form, "it compares arithmetic with a column")


def as_ref(operand: Operand) -> Ref | None:
    """Returns an operand that can be compared with something other than a constant. A result of arithmetic gets a
    column of its own."""
    if isinstance(operand, Derived):
        return operand.ref
    return opaque_of(operand) if isinstance(operand, Whole) else operand if isinstance(operand, Ref) else None


def opaque_of(whole: Whole) -> Ref:
    """Returns a result of arithmetic as a column of its own, which is NULL exactly if its column is."""
    subject = whole.subject
    return Ref(Subject(sql=f"({whole.sql})", type=whole.type, columns=subject.columns, is_strict=subject.is_strict,
                       is_total=subject.is_total), whole.type)


def of_extreme(form: str, op: str, extreme: Extreme, other: Operand, null_of: NullOf) -> Formula:
    """GREATEST is less exactly if all operands that are not NULL are less, and NULL if all are NULL. LEAST is less if
    one of them is."""
    if op in (">", ">=", "<>"):
        return negation(of_extreme(form, {">": "<=", ">=": "<", "<>": "="}[op], extreme, other, null_of))
    if op == "=":
        at_most = of_extreme(form, "<=", extreme, other, null_of)
        return both(at_most, negation(of_extreme(form, "<", extreme, other, null_of)))
    found = of_known(form, op, extreme.parts[-1], other, null_of)
    is_all_null = is_null(extreme.parts[-1], null_of)
    for part in reversed(extreme.parts[:-1]):
        its, is_part_null = of_known(form, op, part, other, null_of), is_null(part, null_of)
        # The greatest and the least of NULL and another operand is the other one.
        joint = both(its, found) if extreme.is_greatest else either(its, found)
        found = chosen(is_part_null, found, chosen(is_all_null, its, joint))
        is_all_null = both(is_part_null, is_all_null)
    return found


def of_known(form: str, op: str, part: Operand, other: Operand, null_of: NullOf) -> Formula:
    return comparison(form, op, part, other, null_of)


def rows(form: str, op: str, pairs: Sequence[tuple[Operand, Operand]], null_of: NullOf) -> Formula:
    """The order of two rows is decided by their first unequal pair, and is NULL if that pair contains a NULL: (a, b) <
    (c, d) is a < c OR (a = c AND b < d), which is NULL in exactly these cases, too."""
    (one, other), *rest = pairs
    if not rest:
        return comparison(form, op, one, other, null_of)
    strict = op.removesuffix("=")
    return either(
        comparison(form, strict, one, other, null_of),
        both(comparison(form, "=", one, other, null_of), rows(form, op, rest, null_of)))


def truths(form: str, op: str, one: Operand, other: Operand) -> Formula:
    """`=` and `<>` between conditions: NULL if one of them is. One of the two may be a constant."""
    if op in ("<", "<=", ">", ">="):
        return order_of_truths(form, op, one, other)
    sides = []
    for side in one, other:
        if isinstance(side, Value) and (side.value is None or isinstance(side.value, bool)):
            side = Truth(Const(side.value))
        if not isinstance(side, Truth):
            raise Unread(form)
        sides.append(side.formula)
    equal = same_truth(*sides)
    if op == "=":
        return equal
    return negation(equal)


def order_of_truths(form: str, op: str, one: Operand, other: Operand) -> Formula:
    """FALSE is less than TRUE. So a <= b is NOT a OR b, but NULL if one of them is."""
    if op in (">", ">="):
        return order_of_truths(form, TURNED[op], other, one)
    equal = truths(form, "=", one, other)
    less = both(negation(truths(form, "=", one, Value("bool", True))), truths(form, "=", other, Value("bool", True)))
    # If one of the two is NULL, so is their equality.
    is_known = negation(tested("UNKNOWN", equal))
    found = less if op == "<" else either(less, equal)
    return either(both(is_known, found), both(negation(is_known), UNKNOWN))


def with_constant(form: str, op: str, operand: Operand, constant: Value) -> Formula:
    """A comparison with NULL is NULL. Any other one depends on the kind of the left side."""
    if constant.value is None:
        return UNKNOWN
    if isinstance(operand, Value):
        return of_constants(form, op, operand, constant)
    if isinstance(operand, Whole):
        return of_whole(form, op, operand, constant)
    if isinstance(operand, DayOf):
        return of_day(op, operand.subject, constant)
    if isinstance(operand, Derived):
        return of_derived(form, op, operand, constant)
    if isinstance(operand, Ref):
        return of_subject(form, op, operand, constant)
    raise Unread(form)


def of_derived(form: str, op: str, operand: Derived, constant: Value) -> Formula:
    """Returns the comparison as the function defines it, or otherwise a comparison of the function's own column."""
    if op in (">", ">=", "<>"):
        return negation(of_derived(form, {">": "<=", ">=": "<", "<>": "="}[op], operand, constant))
    found = operand.means(operand.ref, op, constant)
    return of_subject(form, op, operand.ref, constant) if found is None else found


def of_constants(form: str, op: str, one: Value, other: Value) -> Formula:
    """Two constants: the server's answer is one of three, and is computed here."""
    if one.value is None:
        return UNKNOWN
    if family(one.type) != family(other.type):
        raise Unread(form)
    if isinstance(one.value, str) and op not in ("=", "<>"):
        raise Unread(form, "the order of two texts; without coalesce it is read, as in x < 'm' OR x IS NULL")
    a, b = one.value, other.value
    return Const({
        "=": a == b, "<>": a != b, "<": a < b, "<=": a <= b, ">": a > b, ">=": a >= b,
    }[op])


def of_whole(form: str, op: str, whole: Whole, constant: Value) -> Formula:
    """A result of arithmetic: determines for which numbers of the column the result is in the ranges that the
    comparison means."""
    point = constant.value
    if not isinstance(point, points.Point):
        raise Unread(form)
    if op in (">", ">=", "<>"):
        return negation(of_whole(form, {">": "<=", ">=": "<", "<>": "="}[op], whole, constant))
    if point.is_finite:
        found = ranges.compared(op, point.value, -steps.END, steps.END)
    else:
        found = steps.ALL if op != "=" and point.side > 0 else ()
    try:
        return members.member(whole.subject, whole.steps, found)
    except members.TooWide:
        return of_subject(form, op, opaque_of(whole), constant)


def of_day(op: str, subject: Subject, constant: Value) -> Formula:
    """The date of a timestamp. It is before a date exactly if the timestamp is before that date's midnight, and after
    it exactly if the timestamp is not before the next midnight. This includes infinite dates."""
    if constant.type != "date":
        raise Unread(f"({subject.sql})::date compared with {constant.type}")
    point = constant.value
    if not point.is_finite:
        return compared(subject, op, point)
    begin, end = finite(point.value * points.DAY), finite((point.value + 1) * points.DAY)
    less, less_or_equal = Compare(subject, "<", begin), Compare(subject, "<", end)
    match op:
        case "<":
            return less
        case "<=":
            return less_or_equal
        case ">":
            return Not(less_or_equal)
        case ">=":
            return Not(less)
    equal = both(Not(less), less_or_equal)
    return equal if op == "=" else negation(equal)


def of_subject(form: str, op: str, operand: Ref, constant: Value) -> Formula:
    """A column, or an expression with a column of its own, compared with a constant of its family."""
    subject, type = operand.subject, operand.type
    if type == "date" and constant.type == "timestamp":
        return of_date_and_time(op, subject, constant.value)
    if type == "timestamp" and constant.type == "date":
        return compared(subject, op, midnight_of(constant.value))
    if family(type) != family(constant.type):
        raise Unread(form, f"it compares {type} with {constant.type}")
    if op not in ("=", "<>") and not (is_ordered(type) or subject.labels):
        raise Unread(form, f"the order of {type}")
    if op not in ("=", "<>") and isinstance(constant.value, str) and not subject.labels and subject.collation is None:
        raise Unread(form, "the collation of its order is not known")
    if not (is_ordered(type) or type in LABELS or subject.labels):
        raise Unread(form, f"equality of {type}")
    return compared(subject, op, constant.value)


def midnight_of(day: Point) -> Point:
    """Returns a date as it is compared with timestamps. A date that is too late for a timestamp is above all finite
    timestamps, including the last one, which is its midnight."""
    if not day.is_finite:
        return day
    midnight = day.value * points.DAY
    return finite(midnight if midnight < points.LAST_TIME else midnight + 1)


def of_date_and_time(op: str, subject: Subject, point: Point) -> Formula:
    """A date and a timestamp: the date counts as its midnight. So it is before the timestamp exactly if its day is
    below the timestamp in days, which need not be whole. The last timestamp is below the date of its own day."""
    if not point.is_finite:
        return compared(subject, op, point)
    return compared(subject, op, finite(min(point.value, Fraction(points.LAST_READ)) / points.DAY))


def of_two(form: str, op: str, one: Ref, other: Ref) -> Formula:
    """Two columns. Their comparison gets a column of its own: -1, 0 or 1 if the left one is less than the right one,
    equal to it, or greater. The order of a type is total, so one of the three holds if neither is NULL."""
    if one.subject == other.subject:
        return of_itself(op, one.subject)
    if family(one.type) != family(other.type) and {one.type, other.type} != {"date", "timestamp"}:
        raise Unread(form, f"it compares {one.type} with {other.type}")
    if op in ("=", "<>") and one.type in LABELS or is_ordered(one.type) or one.subject.labels:
        if other.subject.sql < one.subject.sql:
            return of_two(form, TURNED[op], other, one)
        return compared(sign_of(one, other), op, finite(0))
    raise Unread(form, f"the order of {one.type}")


def of_itself(op: str, subject: Subject) -> Formula:
    """x = x is TRUE unless x is NULL."""
    never = both(IsNull(subject), UNKNOWN)
    return negation(never) if op in ("=", "<=", ">=") else never


def sign_of(one: Ref, other: Ref) -> Subject:
    a, b = one.subject, other.subject
    # Under another collation, the comparison is a different one.
    is_own = a.collation is None or a.collation == a.own_collation == b.own_collation
    order = "" if a.collation is None or is_own else f" COLLATE {collation_sql(a.collation)}"
    return Subject(
        sql=f"CASE WHEN {a.sql} < {b.sql}{order} THEN -1 WHEN {a.sql} = {b.sql}{order} THEN 0 "
            f"WHEN {a.sql} > {b.sql}{order} THEN 1 END",
        type="sign", columns=tuple(dict.fromkeys([*a.columns, *b.columns])),
        is_strict=a.is_strict and b.is_strict, is_total=a.is_total and b.is_total, sides=(a.sql, b.sql),
        order=order)


def is_null(operand: Operand, null_of: NullOf) -> Formula:
    """Returns `operand IS NULL`; null_of gives the formula for a subject."""
    match operand:
        case Value():
            return Const(operand.value is None)
        case Truth():
            return tested("UNKNOWN", operand.formula)
        case Choice():
            return chosen(operand.condition, is_null(operand.one, null_of), is_null(operand.other, null_of))
        case Extreme():
            return both(*(is_null(it, null_of) for it in operand.parts))
        case Ref() | Whole() | DayOf():
            return null_of(operand.subject)
        case Derived():
            return null_of(operand.ref.subject)
    raise Unread("a list IS NULL")


def distinct(form: str, one: Operand, other: Operand, null_of: NullOf) -> Formula:
    """IS DISTINCT FROM: TRUE if exactly one side is NULL, or if neither is and they differ. It is never NULL."""
    if isinstance(one, Truth) and isinstance(other, Truth):
        return unlike_truth(one.formula, other.formula)
    if isinstance(one, Value):
        one, other = other, one
    if isinstance(other, Value) and other.value is None:
        return negation(is_null(one, null_of))
    equal = tested("TRUE", comparison(form, "=", one, other, null_of))
    if isinstance(other, Value):
        return negation(equal)
    return negation(either(equal, both(is_null(one, null_of), is_null(other, null_of))))
