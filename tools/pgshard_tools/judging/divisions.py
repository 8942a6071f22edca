"""Divides all rows of a table, whether it is sound or not, into pieces, each with the subscribers that get it."""

from collections.abc import Iterator, Sequence
from dataclasses import dataclass
from typing import Any

from pgshard_tools.judging import explaining, ranges, words
from pgshard_tools.judging.codings import Coding, Labels, Remainders, Signs, Truths
from pgshard_tools.judging.explaining import Codes, Region
from pgshard_tools.judging.formulas import And, Const, Formula, Is, IsNull, Leaf, Not, Or, Within, either, leaves_of
from pgshard_tools.judging.printing import Condition
from pgshard_tools.judging.shares import Takers

# The most regions of a table that are examined.
MOST_STEPS = 20_000
# If there are more pieces, those of the same subscribers are not joined.
MOST_JOINED = 2_000
# The most remainders that are examined one by one.
MOST_REMAINDERS = 64

# The values that a condition may have in a region.
Values = frozenset[bool | None]
TRUE, FALSE, BOTH = frozenset([True]), frozenset([False]), frozenset([True, False])
TESTS: dict[str, bool | None] = {"TRUE": True, "FALSE": False, "UNKNOWN": None}


@dataclass
class Piece:
    """Rows that go to the same subscribers."""

    codes: Codes
    takers: tuple[str, ...]

    @property
    def condition(self) -> str:
        """Returns the rows as a condition in SQL."""
        return explaining.text_of(Region(self.codes, ""))


@dataclass
class Division:
    """The pieces of a table, and what holds for its rows. If `is_whole` is false, there are more pieces."""

    pieces: list[Piece]
    constraints: Sequence[Formula]
    is_whole: bool = True

    def allowed(self, codes: Codes) -> Codes | None:
        """Returns the part of a region that may contain rows, according to all that is known, or None."""
        walk = Walk(self.constraints)
        found = walk.allowed(codes, self.constraints)
        return codes if walk.steps > MOST_STEPS else found

    def parts(self, piece: Piece) -> Iterator[tuple[Codes, Codes]]:
        """Yields the parts of a piece that may contain rows, each with one condition per column, and where the rows may
        be."""
        for codes in plain_parts(piece):
            kept = self.without_remainders_of_none(codes)
            allowed = self.allowed(kept) if kept is not None else None
            if kept is not None and allowed is not None:
                yield kept, allowed

    def without_remainders_of_none(self, codes: Codes) -> Codes | None:
        """Returns a region without the remainders that no row in it has, or None if no row is left."""
        for coded, (found, may_be_null) in codes.items():
            if isinstance(coded, Remainders) and found != coded.full and ranges.size(found) <= MOST_REMAINDERS:
                kept = [it for it in ranges.numbers_of(found)
                        if self.allowed(codes | {coded: (((it, it),), may_be_null)}) is not None]
                if not kept and codes[coded.base][0]:
                    return codes | {coded.base: ((), True)} if codes[coded.base][1] else None
                codes = codes | {coded: (ranges.of_numbers(kept), may_be_null)}
        return codes


def divided(trial: Any, takers: Takers) -> Division:
    """Returns the division of all rows that the constraints may allow. A subscriber gets a row if a filter of its
    publications is TRUE."""
    walk = Walk(trial.constraints)
    found = Division([], trial.constraints)
    shares = {name: share_of(trial.filters, names) for name, names in takers.items()}
    for piece in walk.pieces(explaining.start(trial), shares, ()):
        found.pieces.append(piece)
    found.is_whole = walk.steps < MOST_STEPS
    found.pieces = joined(found.pieces) if len(found.pieces) <= MOST_JOINED else found.pieces
    return found


def share_of(filters: dict[str, Any], names: Sequence[str]) -> Formula:
    """Returns the condition that is TRUE for exactly the rows that a subscriber gets."""
    formulas = [filters[it] for it in names]
    return Const(True) if None in formulas else either(*formulas)


@dataclass
class Walk:
    """Splits regions by conditions until it is decided who gets the rows."""

    constraints: Sequence[Formula]
    steps: int = 0

    def pieces(self, codes: Codes, shares: dict[str, Formula], takers: tuple[str, ...]) -> Iterator[Piece]:
        """Yields the pieces of a region for which some takers are already known; for the others, their conditions are
        given."""
        if self.is_over() or any(possible(it, codes) == FALSE for it in self.constraints):
            return
        values = {name: possible(formula, codes) for name, formula in shares.items()}
        takers = (*takers, *(name for name, its in values.items() if its == TRUE))
        open_ones = {name: shares[name] for name, its in values.items() if True in its and its != TRUE}
        leaf = next((it for formula in open_ones.values() for it in open_leaves(formula, codes)), None)
        if leaf is not None:
            for part in cuts(codes, leaf):
                yield from self.pieces(part, open_ones, takers)
            return
        if self.allowed(codes, self.constraints) is not None:
            yield Piece(codes, takers)

    def allowed(self, codes: Codes, constraints: Sequence[Formula]) -> Codes | None:
        """Returns the part of a region in which no constraint is FALSE, or None."""
        values = [possible(it, codes) for it in constraints]
        if self.is_over() or FALSE in values:
            return None
        open_ones = [it for it, its in zip(constraints, values) if False in its]
        leaf = next((leaf for it in open_ones for leaf in open_leaves(it, codes)), None)
        if leaf is None:
            return codes
        found = (self.allowed(part, open_ones) for part in cuts(codes, leaf))
        return next((it for it in found if it is not None), None)

    def is_over(self) -> bool:
        """Counts a step, and returns whether there were too many."""
        self.steps += 1
        return self.steps > MOST_STEPS


def open_leaves(formula: Formula, codes: Codes) -> Iterator[Leaf]:
    """Yields the conditions that may have several values in a region."""
    return (it for it in leaves_of(formula) if len(possible(it, codes)) > 1)


def cuts(codes: Codes, leaf: Leaf) -> Iterator[Codes]:
    """Yields the parts of a region in which a condition has one value each."""
    assert isinstance(leaf, (Within, IsNull))
    condition = (Condition("", "", leaf.subject, None) if isinstance(leaf, IsNull)
                 else Condition("", "", leaf.coded, leaf.ranges))
    for value in True, False, None:
        part = explaining.cut(codes, condition, value)
        if part is not None:
            yield part


def possible(part: Formula, codes: Codes) -> Values:
    """Returns the values that a formula may have in a region: exactly one if each of its conditions has one."""
    match part:
        case Const():
            return frozenset([part.value])
        case Within():
            return values_within(part, codes)
        case IsNull():
            found, may_be_null = codes[getattr(part.subject, "base", part.subject)]
            return BOTH if found and may_be_null else TRUE if may_be_null else FALSE
        case Not():
            return frozenset(None if it is None else not it for it in possible(part.part, codes))
        case Is():
            return frozenset(it is TESTS[part.test] for it in possible(part.part, codes))
        case And():
            return negative(any_of([negative(possible(it, codes)) for it in part.parts]))
        case Or():
            return any_of([possible(it, codes) for it in part.parts])
    raise TypeError(part)


def values_within(part: Within, codes: Codes) -> Values:
    """Returns whether a code is in some ranges."""
    known, may_be_null = codes[getattr(part.coded, "base", part.coded)]
    found = codes[part.coded][0] if known else ()
    inside = ranges.intersection(found, part.ranges)
    values: list[bool | None] = [None] if may_be_null else []
    values += [True] if inside else []
    values += [False] if inside != found else []
    return frozenset(values)


def negative(values: Values) -> Values:
    return frozenset(None if it is None else not it for it in values)


def any_of(listed: Sequence[Values]) -> Values:
    """Returns the values of OR, part by part."""
    found: Values = FALSE
    for values in listed:
        found = frozenset(True if True in (a, b) else None if None in (a, b) else False for a in found for b in values)
    return found


def joined(pieces: list[Piece]) -> list[Piece]:
    """Joins pieces of the same subscribers that differ in only one column."""
    count = 0
    while count != len(pieces):
        count = len(pieces)
        for coded in pieces[0].codes if pieces else ():
            groups: dict[Any, Piece] = {}
            for piece in pieces:
                others = tuple(its for it, its in piece.codes.items() if it is not coded)
                key = piece.takers, others
                groups[key] = piece if key not in groups else both_of(groups[key], piece, coded)
            pieces = list(groups.values())
    return pieces


def both_of(one: Piece, other: Piece, coded: Coding) -> Piece:
    """Returns the union of two pieces that differ in one column."""
    (a, a_null), (b, b_null) = one.codes[coded], other.codes[coded]
    return Piece(one.codes | {coded: (ranges.union(a, b), a_null or b_null)}, one.takers)


def plain_parts(piece: Piece) -> list[Codes]:
    """Splits a piece into parts with one condition per column: NULL separately, and each interval separately."""
    parts = [piece.codes]
    for coded, (found, may_be_null) in piece.codes.items():
        choices = choices_of(coded, found, may_be_null)
        parts = [it | {coded: choice} for it in parts for choice in choices]
    return parts


def choices_of(coded: Coding, found: ranges.Ranges, may_be_null: bool) -> list[tuple[ranges.Ranges, bool]]:
    """Splits the part of a column that a piece has."""
    if isinstance(coded, Remainders) or not found or found == coded.full:
        return [(found, may_be_null)]
    nulls: list[tuple[ranges.Ranges, bool]] = [((), True)] if may_be_null else []
    if isinstance(coded, (Labels, Truths, Signs)) or len(words.range_words(coded, found)) == 1:
        return [(found, False), *nulls]
    singles = tuple(it for it in found if words.is_single(coded, *it))
    intervals = [((it,), False) for it in found if it not in singles]
    return [*intervals, *([(singles, False)] if singles else []), *nulls]
