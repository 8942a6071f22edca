"""Explains who gets which rows, by the certificate of a sound table: regions that together are exactly all rows."""

from dataclasses import dataclass
from typing import Any, TypeAlias

from pgshard_tools.judging import facts, parser, printing, ranges, words
from pgshard_tools.judging.catalogs import NOBODY, REFUSED_ROWS, extra_publications, filter_text
from pgshard_tools.judging.codings import Coding, Remainders
from pgshard_tools.judging.formulas import both
from pgshard_tools.judging.printing import Condition
from pgshard_tools.judging.ranges import Ranges

Codes: TypeAlias = dict[Coding, tuple[Ranges, bool]]


@dataclass
class Region:
    """For each coding, the ranges of codes, and whether NULL is included. Remainders are NULL exactly if their column
    is."""

    codes: Codes
    owner: str


def regions(verdict: Any) -> list[tuple[str, str]]:
    """Returns pairs of a condition in SQL and a subscriber."""
    trial, takers = verdict.trial, verdict.takers_of_rows
    if trial is None or verdict.certificate is None:
        return []
    names, atoms = owners_and_atoms(trial, takers, verdict.purpose)
    found: list[Region] = []
    walk(verdict.certificate.split(), 0, atoms, start(trial), names, found)
    kept = [it for it in found if it.owner != REFUSED_ROWS]
    return [(text_of(it), "nobody" if it.owner == NOBODY else it.owner) for it in merged(kept)]


def guarded_part(verdict: Any) -> str | None:
    """Returns a part of the filters that no region may contain, because the server evaluates it only for some rows and
    may fail for others."""
    codings = verdict.trial.rewritten.codings if verdict.trial is not None else []
    expressions = [it.subject.sql for it in codings if not it.subject.is_column]
    return next((parser.shown(it) for it in verdict.guarded if any(it in text for text in expressions)), None)


def owners_and_atoms(trial: Any, takers: dict[str, list[str]], purpose: str | None) -> tuple[
        list[str], list[Condition]]:
    """Returns the subscribers in the order of the catalog, and the conditions of the catalog in the order of the
    filters."""
    held = both(*trial.constraints) if trial.constraints else None
    taken = list(dict.fromkeys(name for names in takers.values() for name in names))
    shares = {owner: [filter_text(trial.filters[it], held) for it in names] for owner, names in takers.items() if names}
    shares |= {it: [formula] for it, formula in extra_publications(trial, taken, held, purpose).items()}
    atoms: dict[str, Condition] = {}
    for formulas in shares.values():
        if None not in formulas:
            for formula in formulas:
                for atom in printing.atoms_of(formula):
                    atoms.setdefault(atom.atom, atom)
    return list(shares), list(atoms.values())


def start(trial: Any) -> Codes:
    """Returns the region of all rows."""
    codes = {coded: (coded.full, not coded.not_null) for coded in trial.rewritten.codings}
    for by_modulus in trial.rewritten.remainders.values():
        codes |= {coded: (coded.full, True) for coded in by_modulus.values()}
    return codes


def walk(nodes: list[str], at: int, atoms: list[Condition], codes: Codes | None, names: list[str],
         found: list[Region]) -> int:
    """Reads a certificate's nodes from a place on. Returns where the next node begins."""
    letter, number = nodes[at], int(nodes[at + 1])
    at += 2
    if letter == "o" and codes is not None:
        found.append(Region(codes, names[number]))
    if letter != "s":
        return at
    for value in True, False, None:
        at = walk(nodes, at, atoms, None if codes is None else cut(codes, atoms[number], value), names, found)
    return at


def cut(codes: Codes, atom: Condition, value: bool | None) -> Codes | None:
    """Returns the part of a region in which a condition has a value, or None if it has no rows."""
    coded = atom.coded
    base = getattr(coded, "base", coded)
    if atom.ranges is None:
        return with_null(codes, base, value) if value is not None else None
    if value is None:
        return with_null(codes, base, True)
    part = atom.ranges if value else ranges.complement(atom.ranges, coded.low, coded.high)
    known = with_null(codes, base, False)
    if known is None:
        return None
    left = ranges.intersection(known[coded][0], part)
    return known | {coded: (left, known[coded][1])} if left else None


def with_null(codes: Codes, base: Coding, is_null: bool) -> Codes | None:
    found, may_be_null = codes[base]
    if is_null:
        return codes | {base: ((), True)} if may_be_null else None
    return codes | {base: (found, False)} if found else None


def merged(found: list[Region]) -> list[Region]:
    """Joins regions of one subscriber that differ in only one column."""
    found, at = list(found), 0
    while at < len(found):
        joints = ((it, joint(found[at], found[it])) for it in range(at + 1, len(found)))
        other, both_of_them = next(((it, made) for it, made in joints if made is not None), (0, None))
        if both_of_them is None:
            at += 1
            continue
        found[at] = both_of_them
        del found[other]
        at = 0
    return found


def joint(one: Region, other: Region) -> Region | None:
    """Returns the union of two regions as one region, or None."""
    unlike = [coded for coded in one.codes if one.codes[coded] != other.codes[coded]]
    if one.owner != other.owner or len(unlike) > 1:
        return None
    if not unlike:
        return one
    (a, a_null), (b, b_null) = one.codes[unlike[0]], other.codes[unlike[0]]
    return Region(one.codes | {unlike[0]: (ranges.union(a, b), a_null or b_null)}, one.owner)


def text_of(region: Region) -> str:
    parts = [words.words_of(coded, region.codes[coded][0], may_be_null(region, coded))
             for coded in region.codes if not is_implied(region, coded)]
    return " AND ".join(it for it in parts if it) or "all rows"


def may_be_null(region: Region, coded: Coding) -> bool:
    """Returns whether NULL is in a region. A remainder is NULL exactly if its column is."""
    return region.codes[getattr(coded, "base", coded)][1]


def is_implied(region: Region, coded: Coding) -> bool:
    """Returns whether what is known about other columns implies what the region says about this one."""
    found, with_null = region.codes[coded]
    if isinstance(coded, Remainders):
        low_and_high, _ = region.codes[coded.base]
        possible = ranges.normal([it for piece in low_and_high for it in facts.remainders_in(coded, *piece)])
        return ranges.intersection(possible, found) == possible
    others = [it for it in region.codes if it is not coded and set(it.subject.columns) & set(coded.subject.columns)]
    if not found:
        # An expression is NULL because one of its columns is.
        is_null = any(it.subject.is_column and region.codes[it] == ((), True) for it in others)
        return is_null and not coded.subject.is_column and coded.subject.is_strict
    is_only_not_null = coded.subject.is_column and (found, with_null) == (coded.full, False)
    return is_only_not_null and any(is_said(region, it) for it in others)


def is_said(region: Region, coded: Coding) -> bool:
    """Returns whether the text of a region has a condition that is NULL if this column is."""
    if isinstance(coded, Remainders):
        return region.codes[coded][0] != coded.full and not is_implied(region, coded)
    return coded.subject.is_strict and bool(region.codes[coded][0]) and not region.codes[coded][1]
