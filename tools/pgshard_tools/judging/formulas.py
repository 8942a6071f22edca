"""Filters as trees: comparisons, combined in three-valued logic."""

from dataclasses import dataclass, field
from typing import Any, Callable, Iterator, TypeAlias

from pgshard_tools.judging.ranges import Ranges


@dataclass(frozen=True)
class Subject:
    """What is compared: a column, or an expression that gets a column of its own.

    If `is_strict`, it is NULL if one of its columns is; if it is also `is_total`, only then. A subject that is not a
    column is opaque: nothing else is known about it.
    """

    sql: str
    type: str
    columns: tuple[str, ...]
    modifier: int = -1
    is_column: bool = False
    is_strict: bool = True
    is_total: bool = True
    # Whether it is never NULL, even if a column is.
    is_never_null: bool = False
    # The collation, for the order of texts.
    collation: str | None = None
    # The collation that the text has by itself; for another one, SQL needs COLLATE.
    own_collation: str | None = None
    # All labels of an enum, in order.
    labels: tuple[str, ...] = field(default=(), compare=False)
    # The least and the greatest whole number that a function returns.
    bounds: tuple[int, int] | None = None
    # For the type `sign`, which is that of a comparison of two subjects: their texts, and the COLLATE that it needs.
    sides: tuple[str, ...] = ()
    order: str = ""
    # For the type `bits`, which are those of a column between two places: how many bits are below.
    bits_below: int = 0


@dataclass(frozen=True)
class Const:
    """True, False, or None for NULL."""

    value: bool | None


@dataclass(frozen=True)
class Not:
    part: "Formula"


@dataclass(frozen=True)
class And:
    parts: "tuple[Formula, ...]"


@dataclass(frozen=True)
class Or:
    parts: "tuple[Formula, ...]"


@dataclass(frozen=True)
class Is:
    """Whether a part is TRUE, FALSE or UNKNOWN."""

    test: str
    part: "Formula"


@dataclass(frozen=True)
class Compare:
    """A comparison of a subject with a value. `op` is one of = < <=."""

    subject: Subject
    op: str
    value: Any


@dataclass(frozen=True)
class Remainder:
    """Whether a subject's remainder by a modulus is in some ranges of numbers, both ends included."""

    subject: Subject
    modulus: int
    ranges: Ranges


@dataclass(frozen=True)
class Masked:
    """Whether the bits of a subject that are in a mask, as a nonnegative number, are in some ranges."""

    subject: Subject
    mask: int
    ranges: Ranges


@dataclass(frozen=True)
class IsNull:
    subject: Any


@dataclass(frozen=True)
class Within:
    """Whether the code of a subject is in some ranges, both ends included. Codings convert the leaves above to this
    one."""

    coded: Any
    ranges: Ranges


Leaf: TypeAlias = Compare | Remainder | Masked | IsNull | Within
Formula: TypeAlias = Const | Not | And | Or | Is | Compare | Remainder | Masked | IsNull | Within
LEAVES = (Compare, Remainder, Masked, IsNull, Within)


def both(*parts: Formula) -> Formula:
    return joined(And, False, parts)


def either(*parts: Formula) -> Formula:
    return joined(Or, True, parts)


def joined(kind: type[And] | type[Or], strong: bool, parts: tuple[Formula, ...]) -> Formula:
    """Returns AND or OR of parts, without constants that have no effect."""
    kept: list[Formula] = []
    for part in parts:
        if isinstance(part, (And, Or)) and isinstance(part, kind):
            kept.extend(part.parts)
        elif part == Const(strong):
            return part
        elif part != Const(not strong):
            kept.append(part)
    if len(kept) > 1:
        return kind(tuple(kept))
    return kept[0] if kept else Const(not strong)


def negation(part: Formula) -> Formula:
    if isinstance(part, Const):
        return Const(None if part.value is None else not part.value)
    return part.part if isinstance(part, Not) else Not(part)


def tested(test: str, part: Formula) -> Formula:
    if isinstance(part, Const):
        return Const(part.value is {"TRUE": True, "FALSE": False, "UNKNOWN": None}[test])
    if isinstance(part, (Is, IsNull)):
        return {"TRUE": part, "FALSE": negation(part), "UNKNOWN": Const(False)}[test]
    return Is(test, part)


def compared(subject: Subject, op: str, value: Any) -> Formula:
    """Returns a comparison with any of the six operators, expressed by three of them."""
    match op:
        case "<>":
            return Not(Compare(subject, "=", value))
        case ">":
            return Not(Compare(subject, "<=", value))
        case ">=":
            return Not(Compare(subject, "<", value))
    return Compare(subject, op, value)


def chosen(condition: Formula, part: Formula, other: Formula) -> Formula:
    """Returns CASE WHEN condition THEN part ELSE other END. One of the two operands is FALSE, so the other one
    decides."""
    return either(
        both(tested("TRUE", condition), part),
        both(negation(tested("TRUE", condition)), other))


def same_truth(one: Formula, other: Formula) -> Formula:
    """Returns `=` between two conditions: NULL if one of them is, since then neither AND is TRUE, nor are both
    FALSE."""
    return either(both(one, other), both(negation(one), negation(other)))


def unlike_truth(one: Formula, other: Formula) -> Formula:
    """IS DISTINCT FROM between two conditions."""
    return negation(either(*(both(tested(test, one), tested(test, other)) for test in ("TRUE", "FALSE", "UNKNOWN"))))


def leaves_of(part: Formula) -> Iterator[Leaf]:
    """The leaves of a formula, from the left."""
    if isinstance(part, LEAVES):
        yield part
    elif isinstance(part, (Not, Is)):
        yield from leaves_of(part.part)
    elif isinstance(part, (And, Or)):
        for it in part.parts:
            yield from leaves_of(it)


def replaced(part: Formula, change: Callable[[Any], Formula]) -> Formula:
    """Returns the formula with each leaf replaced."""
    if isinstance(part, LEAVES):
        return change(part)
    match part:
        case Not():
            return negation(replaced(part.part, change))
        case Is():
            return tested(part.test, replaced(part.part, change))
        case And():
            return both(*(replaced(it, change) for it in part.parts))
        case Or():
            return either(*(replaced(it, change) for it in part.parts))
    return part


def has_null(part: Formula) -> bool:
    """Returns whether a formula contains NULL as a constant."""
    match part:
        case Const():
            return part.value is None
        case Not() | Is():
            return has_null(part.part)
        case And() | Or():
            return any(has_null(it) for it in part.parts)
    return False


def is_true(part: Formula) -> Formula:
    """Returns a formula without NULL that is TRUE if the part is, and otherwise FALSE or NULL.

    This is exact, since AND is TRUE if all parts are, and OR if one is; and a filter passes a row only if it is TRUE.
    """
    if not has_null(part):
        return part
    match part:
        case Const():
            return Const(False)
        case Not():
            return is_false(part.part)
        case And():
            return both(*(is_true(it) for it in part.parts))
        case Or():
            return either(*(is_true(it) for it in part.parts))
    return is_tested(part) if isinstance(part, Is) else part


def is_false(part: Formula) -> Formula:
    """Returns a formula without NULL that is TRUE if the part is FALSE, and otherwise FALSE or NULL."""
    if not has_null(part):
        return negation(part)
    match part:
        case Const():
            return Const(False)
        case Not():
            return is_true(part.part)
        case And():
            return either(*(is_false(it) for it in part.parts))
        case Or():
            return both(*(is_false(it) for it in part.parts))
    return negation(is_tested(part) if isinstance(part, Is) else part)


def is_tested(part: Is) -> Formula:
    """Returns an IS test of a part that contains NULL. It is never NULL itself."""
    true = tested("TRUE", is_true(part.part))
    false = tested("TRUE", is_false(part.part))
    return {"TRUE": true, "FALSE": false, "UNKNOWN": both(negation(true), negation(false))}[part.test]
