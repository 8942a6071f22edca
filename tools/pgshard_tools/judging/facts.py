"""What holds for all rows, although no certificate can express it by itself: formulas that are never FALSE.

They are given to pgshard as constraints. Each is a law of arithmetic or of NULL, so they exclude no row.
"""

from typing import Callable

from pgshard_tools.judging import bits, codings, ranges
from pgshard_tools.judging.codings import Coding, Remainders
from pgshard_tools.judging.formulas import Formula, IsNull, Subject, Within, both, either, leaves_of, negation
from pgshard_tools.judging.ranges import Range, Ranges
from pgshard_tools.judging.rewriting import Rewritten, free_name

# Facts about more pieces of a column than this would only make the filters long.
MOST_PIECES = 100


def facts_of(rewritten: Rewritten, not_null_columns: set[str]) -> list[Formula]:
    """Returns all facts that connect a table's columns in the filters."""
    return [*facts_of_remainders(rewritten), *facts_of_bits(rewritten), *facts_of_bounds(rewritten),
            *facts_of_nulls(rewritten, not_null_columns)]


def facts_of_bounds(rewritten: Rewritten) -> list[Formula]:
    """Returns the fact that a function with few results has only these."""
    return [Within(coded, (coded.subject.bounds,)) for coded in rewritten.codings
            if coded.subject.bounds is not None and isinstance(coded, codings.Integers)]


def facts_of_remainders(rewritten: Rewritten) -> list[Formula]:
    """Returns which remainders occur in each piece between the constants with which a column is compared: above zero no
    negative ones, below zero no positive ones, and in a short piece only those of its numbers."""
    facts: list[Formula] = []
    for by_modulus in rewritten.remainders.values():
        for coded in dict.fromkeys(by_modulus.values()):
            pieces = pieces_of(rewritten, coded.base)
            if 1 < len(pieces) <= MOST_PIECES:
                facts.extend(facts_between(
                    coded.base, coded, pieces, lambda low, high: remainders_in(coded, low, high)))
    return facts


def facts_of_bits(rewritten: Rewritten) -> list[Formula]:
    """Returns which bits occur in each piece between the constants with which a column is compared, or with which its
    remainder by a multiple of the bits' power of two is compared."""
    facts: list[Formula] = []
    by_sql = {it.subject.sql: it for it in rewritten.codings}
    for coded in rewritten.codings:
        if coded.subject.type != bits.TYPE:
            continue
        below, width = coded.subject.bits_below, coded.subject.modifier
        base = by_sql.get(coded.subject.sides[0])
        remainders = {
            it for by_modulus in rewritten.remainders.values() for it in by_modulus.values() if it.base is base}
        # In two's complement, numbers that are congruent modulo 2^k have the same last k bits.
        others = [it for it in remainders if it.modulus % 2 ** (below + width) == 0]
        for other in [*([base] if isinstance(base, codings.Integers) else []), *others]:
            pieces = pieces_of(rewritten, other)
            if 1 < len(pieces) <= MOST_PIECES:
                facts.extend(facts_between(
                    other, coded, pieces, lambda low, high: bits.bits_in(low, high, below, width)))
    return facts


def pieces_of(rewritten: Rewritten, base: Coding) -> list[Range]:
    """Returns the column's numbers, divided at the ends of all ranges in formulas."""
    cuts: set[int] = set()
    for formula in rewritten.formulas:
        for leaf in leaves_of(formula) if formula is not None else ():
            if isinstance(leaf, Within) and leaf.coded is base:
                cuts.update(low for low, _ in leaf.ranges)
                cuts.update(high + 1 for _, high in leaf.ranges)
    begins = sorted({base.low, *(it for it in cuts if base.low < it <= base.high)})
    return [(low, high - 1) for low, high in zip(begins, [*begins[1:], base.high + 1])]


def facts_between(one: Coding, other: Coding, pieces: list[Range],
                  possible: Callable[[int, int], Ranges]) -> list[Formula]:
    """Returns the fact that if one coding is in some pieces, the other one has a value that is possible there."""
    by_ranges: dict[Ranges, list[Range]] = {}
    for piece in pieces:
        found = possible(*piece)
        if found != other.full:
            by_ranges.setdefault(found, []).append(piece)
    return [either(negation(Within(one, ranges.normal(those))), Within(other, found))
            for found, those in by_ranges.items()]


def remainders_in(coded: Remainders, low: int, high: int) -> Ranges:
    """Returns the remainders of the numbers between two ends."""
    if low < 0 < high:
        return ranges.union(remainders_in(coded, low, 0), remainders_in(coded, 0, high))
    if high - low + 1 >= coded.modulus:
        found = (0, coded.high) if high > 0 else (coded.low, 0)
    elif ranges.remainder(low, coded.modulus) <= ranges.remainder(high, coded.modulus):
        found = ranges.remainder(low, coded.modulus), ranges.remainder(high, coded.modulus)
    else:
        return ranges.intersection(wrapped(coded, low, high), coded.full)
    return ranges.intersection([found], coded.full)


def wrapped(coded: Remainders, low: int, high: int) -> list[Range]:
    """Returns the remainders of a short run of numbers that crosses a multiple of the modulus."""
    begin, end = ranges.remainder(low, coded.modulus), ranges.remainder(high, coded.modulus)
    if high > 0:
        return [(begin, coded.modulus - 1), (0, end)]
    return [(begin, 0), (1 - coded.modulus, end)]


def facts_of_nulls(rewritten: Rewritten, not_null_columns: set[str]) -> list[Formula]:
    """Returns the fact that a strict expression is NULL if one of its columns is, and only then if it is also total."""
    by_column: dict[str, list[Coding]] = {}
    for coding in rewritten.codings:
        for name in coding.subject.columns:
            by_column.setdefault(name, []).append(coding)
    shared = {name for name, codings_of in by_column.items() if len(codings_of) > 1}
    asked = [it for it in rewritten.codings if shared & set(it.subject.columns) - not_null_columns]
    columns = {
        name: column_coding(rewritten, name, by_column[name])
        for coding in asked for name in coding.subject.columns if name not in not_null_columns}
    facts: list[Formula] = []
    for coding in asked:
        names = [it for it in coding.subject.columns if it not in not_null_columns]
        if coding in columns.values():
            continue
        of_columns = either(*(IsNull(columns[it]) for it in names))
        if coding.subject.is_strict:
            facts.append(negation(both(of_columns, negation(IsNull(coding)))))
        if coding.subject.is_total and coding.subject.is_strict:
            facts.append(negation(both(IsNull(coding), negation(of_columns))))
    return facts


def column_coding(rewritten: Rewritten, name: str, shared: list[Coding]) -> Coding:
    """Returns the coding of a column itself, which is created if only expressions of it occur."""
    for coding in [*shared, *rewritten.codings]:
        if coding.subject.is_column and coding.subject.columns == (name,):
            return coding
    made = codings.Nulls(Subject(sql=name, type="any", columns=(name,), is_column=True))
    made.name = free_name(name, {it.name for it in rewritten.codings})
    rewritten.codings.append(made)
    return made
