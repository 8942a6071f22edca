"""Arithmetic of whole numbers: of constants, of one column step by step, and of several columns.

The server fails if a result does not fit its type, or a divisor is 0. A filter is read as if there were no limits. This
gives the server's value wherever the server does not fail, since a part that the server does not evaluate does not
affect the filter's value. Where the server may fail is recorded separately.
"""

import math
from dataclasses import dataclass, field
from fractions import Fraction
from typing import Callable, Sequence, TypeAlias

from pgshard_tools.judging import functions, members, ranges, steps
from pgshard_tools.judging.faults import Unread
from pgshard_tools.judging.formulas import Compare, Const, Formula, Remainder, Subject, both, negation, tested
from pgshard_tools.judging.operands import Choice, Operand, Ref, Value, Whole
from pgshard_tools.judging.points import Point, finite
from pgshard_tools.judging.server_types import INTEGERS, number_form
from pgshard_tools.judging.steps import Absolute, Add, Lookup, Mask, Modulo, Quotient, Shift, Step, Times, divided

TOO_LARGE = "it fails at a row where the result does not fit its type"
BY_ZERO = "it divides by zero"

OPERATORS: dict[str, Callable[[int, int], int]] = {
    "+": lambda a, b: a + b,
    "-": lambda a, b: a - b,
    "*": lambda a, b: a * b,
    "/": divided,
    "%": lambda a, b: ranges.remainder(a, abs(b)),
    "&": lambda a, b: a & b,
    "|": lambda a, b: a | b,
    "#": lambda a, b: a ^ b,
    ">>": lambda a, b: a >> b,
}
NEVER_FAILING = "&|#"
NUMBERS = ("int2", "int4", "int8", "numeric", "float4", "float8")


# Two numbers between which a column is, or None if they are not known.
Bounds: TypeAlias = tuple[Fraction, Fraction] | None
BoundsOf: TypeAlias = Callable[[Subject], Bounds]


@dataclass(frozen=True)
class Failure:
    """A part of a filter for which the server fails if a formula is TRUE. Without a formula it is not known when it
    fails, but it may be known that it never fails if columns are between certain numbers."""

    form: str
    where: Formula | None
    columns: tuple[str, ...]
    is_nowhere: "Callable[[BoundsOf], bool]" = field(default=lambda _: False, compare=False)
    # Whether the server evaluates the part only for some rows.
    is_guarded: bool = False


@dataclass
class Failing:
    """What is recorded while a filter is read: the conditions under which a part is evaluated, and when it fails."""

    path: list[Formula] = field(default_factory=list)
    found: list[Failure] = field(default_factory=list)

    def note(self, form: str, where: Formula | None, columns: Sequence[str],
             is_nowhere: "Callable[[BoundsOf], bool]" = lambda _: False) -> None:
        if where is not None:
            where = both(*self.path, tested("TRUE", where))
            if where == Const(False):
                return
        self.found.append(Failure(form, where, tuple(columns), is_nowhere, bool(self.path)))


def is_arithmetic(name: str, arguments: Sequence[str]) -> bool:
    """Returns whether an operator is an arithmetic operator that is read here."""
    if name not in OPERATORS:
        return False
    is_whole = all(it in INTEGERS for it in arguments)
    return is_whole or name in "+-*/%" and all(it in NUMBERS for it in arguments)


def wider(*types: str) -> str:
    return max((it for it in types if it in INTEGERS), key=lambda it: INTEGERS[it][0], default="int4")


def fits(number: int, type: str) -> bool:
    limit = int(2 ** (INTEGERS[type][0] - 1))
    return -limit <= number < limit


def numbers_of(type: str) -> tuple[int, int]:
    """Returns the least and the greatest number of an integer type."""
    limit = int(2 ** (INTEGERS[type][0] - 1))
    return -limit, limit - 1


def number_of(operand: Operand) -> int | None:
    """Returns the number if the operand is a constant of an integer type."""
    if not isinstance(operand, Value) or operand.type not in INTEGERS or operand.value is None:
        return None
    return int(operand.value.value)


def whole_of(operand: Operand) -> Whole | None:
    """Returns a column of whole numbers, with the steps that have been applied to it."""
    if isinstance(operand, Ref) and operand.type in INTEGERS and operand.subject.type in INTEGERS:
        return Whole(operand.subject, (), operand.type, operand.subject.sql)
    return operand if isinstance(operand, Whole) and operand.type in INTEGERS else None


def combined(form: str, op: str, one: Operand, other: Operand, type: str, failing: Failing) -> Operand:
    """Returns an operand for `one op other`, whose result has this type."""
    for side in one, other:
        if isinstance(side, Value) and side.value is None:
            return Value(type, None)
    if isinstance(one, Choice):
        return distributed(one, lambda it: combined(form, op, it, other, type, failing), failing)
    if isinstance(other, Choice):
        return distributed(other, lambda it: combined(form, op, one, it, type, failing), failing)
    left, right = number_of(one), number_of(other)
    if left is not None and right is not None:
        return folded(form, op, left, right, type)
    found = of_one_column(form, op, one, other, type)
    if found is None:
        return of_columns(form, op, one, other, type, failing)
    note_failures(form, found, failing)
    return found


def distributed(choice: Choice, change: Callable[[Operand], Operand], failing: Failing) -> Operand:
    """Applies an operation to each branch of a CASE. There it is evaluated only if the branch is taken."""
    taken = tested("TRUE", choice.condition)
    failing.path.append(taken)
    one = change(choice.one)
    failing.path[-1] = negation(taken)
    other = change(choice.other)
    failing.path.pop()
    return Choice(choice.condition, one, other)


def folded(form: str, op: str, left: int, right: int, type: str) -> Value:
    if op in "/%" and right == 0:
        raise Unread(form, BY_ZERO)
    if op == ">>" and not 0 <= right < INTEGERS[type][0]:
        raise Unread(form, "a shift by that many bits")
    result = OPERATORS[op](left, right)
    if not fits(result, type):
        raise Unread(form, TOO_LARGE)
    return Value(type, finite(result))


def of_one_column(form: str, op: str, one: Operand, other: Operand, type: str) -> Whole | None:
    """Returns the operand with one more step, or None if the step is not one of the known ones."""
    left, right = whole_of(one), whole_of(other)
    if left is not None and right is not None:
        return of_remainders(form, op, left, right, type)
    column, constant = (left, number_of(other)) if left is not None else (right, number_of(one))
    if column is None or constant is None:
        return None
    done = next_steps(form, op, constant, column is right, column.type)
    if done is None or len(column.steps) + len(done) > steps.MOST_STEPS:
        return None
    return Whole(column.subject, column.steps + done, type, form)


def next_steps(form: str, op: str, number: int, is_turned: bool, type: str) -> tuple[Step, ...] | None:
    """Returns the steps of `x op number`, or of `number op x` if the sides are swapped."""
    if op in "/%" and not is_turned and number == 0:
        raise Unread(form, BY_ZERO)
    match op:
        case "+":
            return (Add(number),)
        case "-":
            return (Times(-1), Add(number)) if is_turned else (Add(-number),)
        case "*":
            return (Times(number),)
        case "&":
            return masking(number)
        case "/" if not is_turned:
            return (Quotient(number),)
        case "%" if not is_turned:
            return (Modulo(abs(number)),)
        case ">>" if not is_turned and 0 <= number < INTEGERS[type][0]:
            return (Shift(number),)
    return None


def masking(number: int) -> tuple[Step, ...] | None:
    """x & -2^k clears the last k bits. Other masks are read if they are not negative."""
    if number >= 0:
        return (Mask(number),)
    bits = (-number).bit_length() - 1
    return (Shift(bits), Times(1 << bits)) if -number == 1 << bits else None


def of_remainders(form: str, op: str, left: Whole, right: Whole, type: str) -> Whole | None:
    """If two results depend on remainders of one column, their combination depends on its remainder by a common
    multiple of the moduli."""
    moduli = [steps.modulus_of(it.steps) for it in (left, right)]
    known = [it for it in moduli if it is not None]
    if left.subject != right.subject or len(known) < 2 or op == ">>":
        return None
    modulus = steps.common_modulus(known)
    if modulus > members.MOST_REMAINDERS:
        return None
    pairs = [(steps.applied(left.steps, it), steps.applied(right.steps, it)) for it in range(1 - modulus, modulus)]
    if op in "/%" and any(it == 0 for _, it in pairs):
        return None
    return Whole(left.subject, (Lookup(modulus, tuple(OPERATORS[op](*it) for it in pairs)),), type, form)


def note_failures(form: str, found: Whole, failing: Failing) -> None:
    """Records when the last result does not fit its type."""
    least, greatest = numbers_of(found.type)
    low, high = steps.bounds(found.steps, *numbers_of(found.subject.type))
    if least <= low and high <= greatest:
        return
    outside = ((-steps.END, least - 1), (greatest + 1, steps.END))
    try:
        where = members.member(found.subject, found.steps, outside)
    except members.TooWide:
        failing.note(form, None, found.subject.columns)
        return
    if not is_never(where):
        failing.note(form, where, found.subject.columns)


def is_never(formula: Formula) -> bool:
    """Returns whether a comparison obviously holds for no number of its type."""
    if isinstance(formula, Remainder):
        return not formula.ranges
    is_below = isinstance(formula, Compare) and formula.op == "<" and formula.subject.type in INTEGERS
    return is_below and isinstance(formula, Compare) and formula.value.value <= numbers_of(formula.subject.type)[0]


def of_columns(form: str, op: str, one: Operand, other: Operand, type: str, failing: Failing) -> Operand:
    """Reads arithmetic that gets a column of its own: it is NULL exactly if one side is, and has an arbitrary value
    where the server fails."""
    if not (type in NUMBERS and op in OPERATORS):
        raise Unread(form, "it is not arithmetic that judge knows")
    found = functions.opaque(form, type, True, (one, other))
    if op not in NEVER_FAILING and isinstance(found, Ref) and not is_within(op, one, other, type, type_bounds):
        failing.note(form, where_zero(op, one, other, type), found.subject.columns,
                     lambda bounds: is_within(op, one, other, type, bounds))
    return found


def where_zero(op: str, one: Operand, other: Operand, type: str) -> Formula | None:
    """Returns when the divisor is 0, if a division fails exactly then. The least number divided by -1 does not fit its
    type."""
    divisor, left = whole_of(other), bounds_of(one, type_bounds)
    if op not in "/%" or type not in INTEGERS or divisor is None:
        return None
    if op == "/" and (left is None or left[0] <= numbers_of(type)[0]):
        return None
    try:
        return members.member(divisor.subject, divisor.steps, ((0, 0),))
    except members.TooWide:
        return None


def type_bounds(subject: Subject) -> Bounds:
    """Returns the limits of a column's type. No numeric operation fails because of NaN or infinity, and a numeric with
    a precision has no infinity."""
    if subject.type in INTEGERS:
        low, high = numbers_of(subject.type)
        return Fraction(low), Fraction(high)
    form = number_form(subject.type, subject.modifier)
    if form is None:
        return None
    most = Fraction(10) ** (form[0] - form[1])
    return -most, most


def is_within(op: str, one: Operand, other: Operand, type: str, bounds: BoundsOf) -> bool:
    """Returns whether the results for all numbers of both sides fit the type, and no divisor is 0."""
    left, right = bounds_of(one, bounds), bounds_of(other, bounds)
    if left is None or right is None:
        return False
    if op in "/%" and right[0] <= 0 <= right[1] or op == ">>":
        return op == ">>"
    if op == "%":
        return True
    corners = [exact(op, a, b) for a in left for b in right]
    if type in INTEGERS:
        least, greatest = numbers_of(type)
        return least <= min(corners) and max(corners) <= greatest
    # A numeric has room for 131072 digits before the decimal point; for floats nothing is claimed.
    return type == "numeric" and max(abs(it) for it in corners) < 10**100


def exact(op: str, one: Fraction, other: Fraction) -> Fraction:
    match op:
        case "+":
            return one + other
        case "-":
            return one - other
        case "*":
            return one * other
    return one / other


def bounds_of(operand: Operand, bounds: BoundsOf) -> Bounds:
    """Returns two numbers between which the operand is, or None if they are not known."""
    match operand:
        case Value(value=Point() as point) if point.is_finite:
            return point.value, point.value
        case Ref(subject=subject, type=type) if type in NUMBERS:
            return bounds(subject)
        case Whole():
            found = bounds(operand.subject)
            if found is None or operand.type not in INTEGERS:
                return None
            # Whether a step fails is recorded separately.
            low, high = steps.bounds(operand.steps, math.ceil(found[0]), math.floor(found[1]))
            return Fraction(low), Fraction(high)
    return None


def negated(form: str, operand: Operand, type: str, failing: Failing) -> Operand:
    """Reads -x."""
    if isinstance(operand, Choice):
        return distributed(operand, lambda it: negated(form, it, type, failing), failing)
    if isinstance(operand, Value) and (operand.value is None or operand.value.is_finite):
        return Value(type, None if operand.value is None else finite(-operand.value.value))
    return stepped(form, operand, (Times(-1),), type, failing)


def absolute(form: str, operand: Operand, type: str, failing: Failing) -> Operand:
    """Reads abs(x)."""
    if isinstance(operand, Choice):
        return distributed(operand, lambda it: absolute(form, it, type, failing), failing)
    number = number_of(operand)
    if number is not None:
        return folded(form, "+", abs(number), 0, type)
    return stepped(form, operand, (Absolute(),), type, failing)


def complement(form: str, operand: Operand, type: str, failing: Failing) -> Operand:
    """Reads ~x, which is -x - 1 and never fails."""
    if isinstance(operand, Choice):
        return distributed(operand, lambda it: complement(form, it, type, failing), failing)
    number = number_of(operand)
    if number is not None:
        return Value(type, finite(~number))
    return stepped(form, operand, (Times(-1), Add(-1)), type, failing)


def stepped(form: str, operand: Operand, done: tuple[Step, ...], type: str, failing: Failing) -> Operand:
    """Returns a column with further steps."""
    column = whole_of(operand)
    if column is None or len(column.steps) + len(done) > steps.MOST_STEPS:
        raise Unread(form, "it is not arithmetic of one column of whole numbers")
    found = Whole(column.subject, column.steps + done, type, form)
    note_failures(form, found, failing)
    return found
