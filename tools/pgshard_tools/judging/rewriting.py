"""Rewrites a table's filters and constraints over columns that pgshard reads: each subject of a comparison gets a
coding."""

import itertools
import math
from dataclasses import dataclass, field, replace
from fractions import Fraction
from typing import Any, Callable, Sequence, TypeAlias

from pgshard_tools.judging import bits, codings, formulas, points, ranges, server_types
from pgshard_tools.judging.codings import Coding, Remainders
from pgshard_tools.judging.formulas import (
    And,
    Compare,
    Formula,
    IsNull,
    Leaf,
    Not,
    Or,
    Remainder,
    Subject,
    Within,
    both,
    either,
    leaves_of,
    negation,
)
from pgshard_tools.judging.members import MOST_REMAINDERS
from pgshard_tools.judging.ranges import Ranges
from pgshard_tools.judging.server_types import INTEGERS

LONGEST_NAME = 63
# The digits of a numeric with a precision that fit a bigint.
MOST_DIGITS = 18


# Sorts texts in the server's order under a collation.
Sort: TypeAlias = Callable[[str, Sequence[str]], list[str]]


@dataclass
class Uses:
    """How a subject is used: constants in comparisons, whether any comparison is one of order, and moduli."""

    constants: set[Any] = field(default_factory=set)
    is_ordered: bool = False
    moduli: set[int] = field(default_factory=set)


@dataclass
class Rewritten:
    """The printed columns, and formulas whose leaves are Within and IsNull of codings."""

    codings: list[Coding]
    formulas: list[Formula | None]
    remainders: dict[Subject, dict[int, Remainders]]


def rewritten(given: Sequence[Formula | None], not_null_columns: set[str], sort: Sort) -> Rewritten:
    """Returns codes for everything that the formulas test. `sort` orders texts under a collation as the server does."""
    listed = unified(bits.expanded([formulas.is_true(it) if it is not None else None for it in given]))
    uses = uses_of(listed)
    base = {subject: coding_of(subject, use, sort) for subject, use in uses.items()}
    remainders = {subject: remainders_of(base[subject], use.moduli) for subject, use in uses.items() if use.moduli}
    settle_names(base, not_null_columns)
    for subject, by_modulus in remainders.items():
        for its in by_modulus.values():
            its.name, its.not_null = base[subject].name, base[subject].not_null

    def coded(leaf: Leaf) -> Formula:
        match leaf:
            case Compare():
                coding = base[leaf.subject]
                return Within(coding, coding.ranges_of(leaf.op, leaf.value))
            case Remainder():
                coding = remainders[leaf.subject][leaf.modulus]
                return Within(coding, coding.lifted(leaf.modulus, leaf.ranges))
            case IsNull():
                return IsNull(base[leaf.subject])
        raise TypeError(leaf)

    changed = [None if it is None else merged(formulas.replaced(it, coded)) for it in listed]
    return Rewritten(list(base.values()), changed, remainders)


def unified(listed: list[Formula | None]) -> list[Formula | None]:
    """Merges the subjects of a text column into one, with the collation under which it is ordered, if there is only
    one. Equality is the same under each collation that is read, since these distinguish texts that differ in any
    byte."""
    orders: dict[str, set[str]] = {}
    for leaf in itertools.chain(*(leaves_of(it) for it in listed if it is not None)):
        if isinstance(leaf, Compare) and leaf.op != "=" and leaf.subject.collation:
            orders.setdefault(leaf.subject.sql, set()).add(leaf.subject.collation)

    def change(leaf: Leaf) -> Leaf:
        if isinstance(leaf, Within):
            return leaf
        subject = leaf.subject
        known = orders.get(subject.sql, set())
        is_order = isinstance(leaf, Compare) and leaf.op != "="
        if subject.collation and not (is_order and len(known) > 1):
            subject = replace(subject, collation=min(known, default="C"))
        return replace(leaf, subject=subject)

    return [None if it is None else formulas.replaced(it, change) for it in listed]


def uses_of(listed: list[Formula | None]) -> dict[Subject, Uses]:
    uses: dict[Subject, Uses] = {}
    for leaf in itertools.chain(*(leaves_of(it) for it in listed if it is not None)):
        if isinstance(leaf, Within):
            continue
        use = uses.setdefault(leaf.subject, Uses())
        if isinstance(leaf, Compare):
            use.constants.add(leaf.value)
            use.is_ordered |= leaf.op != "="
        elif isinstance(leaf, Remainder):
            use.moduli.add(leaf.modulus)
    return uses


def coding_of(subject: Subject, use: Uses, sort: Sort) -> Coding:
    """Returns the coding of a subject, according to its type and its uses."""
    if not use.constants and not (use.moduli and subject.type in INTEGERS):
        return codings.Nulls(subject)
    if subject.type == "bool":
        return codings.Truths(subject)
    if subject.type == "sign":
        return codings.Signs(subject)
    if subject.type == bits.TYPE:
        return codings.Bits(subject)
    if subject.type in INTEGERS:
        return codings.Integers(subject)
    if subject.labels:
        return codings.Enumerated(subject)
    if subject.bounds is not None:
        return codings.Steps(subject, "integer", *subject.bounds)
    return steps_of(subject) or ordered_or_labels(subject, use, sort)


def steps_of(subject: Subject) -> Coding | None:
    """Returns a coding for dates as days, times as microseconds since 2000, and numerics with a scale as whole numbers
    with that many more digits. These are in the order of the values, with infinity, -infinity and NaN beyond the ends,
    if the server has them."""
    places = 10 ** (6 - subject.modifier) if 0 <= subject.modifier <= 6 else 1
    match subject.type:
        case "date":
            return codings.Steps(
                subject, "integer", points.FIRST_DAY, points.LAST_DAY, below=points.LEAST, above=points.GREATEST)
        case "timestamp" | "timestamptz":
            first, last = -(-points.FIRST_TIME // places), points.LAST_TIME // places
            return codings.Steps(
                subject, "bigint", first, last, unit=places, below=points.LEAST, above=points.GREATEST)
        case "time":
            return codings.Steps(subject, "bigint", 0, points.DAY // places, unit=places)
    form = server_types.number_form(subject.type, subject.modifier)
    if form is None or form[0] > MOST_DIGITS:
        return None
    most = 10 ** form[0] - 1
    unit = Fraction(10) ** -form[1]
    return codings.Steps(subject, "bigint", -most, most, unit=unit, above=points.NOT_A_NUMBER)


def ordered_or_labels(subject: Subject, use: Uses, sort: Sort) -> Coding:
    """A subject that is only compared for equality is a text. Otherwise, the constants are sorted, and each value has
    its place among them."""
    is_number = server_types.family(subject.type) == "number"
    if not use.is_ordered and not is_number:
        return codings.Labels(subject, use.constants)
    if isinstance(next(iter(use.constants)), str):
        return codings.Ranks(subject, sort(subject.collation or "default", list(use.constants)))
    return codings.Ranks(subject, sorted(use.constants))


def remainders_of(base: Coding, moduli: set[int]) -> dict[int, Remainders]:
    """Returns for each modulus the coding of its remainder: that by a common multiple, unless that is large."""
    common = math.lcm(*moduli)
    if len(moduli) == 1 or common <= MOST_REMAINDERS:
        coded = codings.Remainders(base, common)
        return {modulus: coded for modulus in moduli}
    return {modulus: codings.Remainders(base, modulus) for modulus in moduli}


def settle_names(base: dict[Subject, Coding], not_null_columns: set[str]) -> None:
    """A column keeps its name; an expression has its text as a name, cut to the maximal length of a name."""
    taken: set[str] = set()
    for subject, coding in sorted(base.items(), key=lambda it: not it[0].is_column):
        name = subject.columns[0] if subject.is_column else subject.sql.replace("\n", " ")
        coding.name = free_name(name, taken)
        taken.add(coding.name)
        is_never_null = all(name in not_null_columns for name in subject.columns)
        coding.not_null = subject.is_never_null or is_never_null and (subject.is_column or subject.is_total)


def free_name(name: str, taken: set[str]) -> str:
    """Returns the name, cut to the maximal length, or followed by the first number that makes it unique."""
    ends = itertools.chain([""], (f" {number}" for number in itertools.count(2)))
    cuts = (name.encode()[:LONGEST_NAME - len(end)].decode(errors="ignore") + end for end in ends)
    return next(it for it in cuts if it not in taken)


def merged(part: Formula) -> Formula:
    """Returns the formula with comparisons of one subject joined.

    This is exact, since all of them are NULL exactly if the subject is: AND is then the intersection of the ranges, OR
    their union, and NOT the complement. So the two comparisons into which the server turns BETWEEN become one range
    again.
    """
    match part:
        case Not():
            inner = merged(part.part)
            if isinstance(inner, Within):
                return Within(inner.coded, ranges.complement(inner.ranges, inner.coded.low, inner.coded.high))
            return negation(inner)
        case formulas.Is():
            return formulas.tested(part.test, merged(part.part))
        case And():
            return joined([merged(it) for it in part.parts], ranges.intersection, both)
        case Or():
            return joined([merged(it) for it in part.parts], ranges.union, either)
    return part


def joined(parts: list[Formula], join: Callable[[Ranges, Ranges], Ranges],
           build: Callable[..., Formula]) -> Formula:
    """Joins the parts that are Within of the same coding, at the place of the first."""
    ranges_of: dict[Coding, Ranges] = {}
    for part in parts:
        if isinstance(part, Within):
            ranges_of[part.coded] = join(ranges_of[part.coded], part.ranges) if part.coded in ranges_of else part.ranges
    kept: dict[Any, Formula] = {}
    for place, part in enumerate(parts):
        if isinstance(part, Within):
            kept.setdefault(part.coded, Within(part.coded, ranges_of[part.coded]))
        else:
            kept[place] = part
    return build(*kept.values())
