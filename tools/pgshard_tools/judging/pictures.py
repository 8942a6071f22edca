"""Draws a map of who gets which rows of a table: intervals on a line for one term, a grid for two, a list for more."""

from collections.abc import Iterator, Sequence
from dataclasses import dataclass

from pgshard_tools.judging import explaining, parser, ranges, words
from pgshard_tools.judging.codings import Coding, Labels, Nulls, Remainders, Truths
from pgshard_tools.judging.divisions import Division, Piece
from pgshard_tools.judging.explaining import Codes, Region
from pgshard_tools.judging.ranges import Ranges

# The most cells on a side of a grid, and the most lines of a list.
MOST_CELLS = 24
MOST_LINES = 60

# The part of a term that a cell has: ranges of codes, or None for NULL.
Part = Ranges | None


@dataclass
class Cell:
    """Some rows, as a condition in SQL, and who gets them: None if the table has no such row."""

    condition: str
    takers: list[str] | None


@dataclass
class Side:
    """A term, and its parts as they are written."""

    term: str
    parts: list[str]


@dataclass
class Map:
    """The cells of a line, of a grid row by row, or of a list. `more` counts lines that are left out."""

    sides: list[Side]
    cells: list[Cell]
    more: int = 0


@dataclass
class Axis:
    """A term of the filters, with its parts. The filters distinguish rows only by the parts that contain them."""

    coded: Coding
    parts: list[Part]

    @property
    def base(self) -> Coding:
        found: Coding = getattr(self.coded, "base", self.coded)
        return found

    def within(self, codes: Codes, part: Part) -> Codes:
        """Returns the part of a region in which the term is in this part."""
        if part is None:
            return codes | {self.base: ((), True)}
        known = codes | {self.base: (codes[self.base][0], False)}
        return known | {self.coded: (part, codes[self.coded][1] and self.coded is not self.base)}

    def words(self, part: Part) -> str:
        """Returns a part as a condition."""
        if part is None:
            return words.null_words(self.base)
        return words.words_of(self.coded, part, False) or "any value"


def map_of(division: Division) -> Map:
    """Returns the map of a table."""
    start = start_of(division)
    axes = [] if start is None else axes_of(division, start)
    if start is None or len(axes) > 2 or any(len(it.parts) > MOST_CELLS for it in axes):
        return listed(division)
    found = Map([], [])
    choices = list(combinations(axes))
    for parts in choices:
        codes = start
        for axis, part in zip(axes, parts):
            codes = axis.within(codes, part)
        found.cells.append(Cell(explaining.text_of(Region(codes, "")), takers_at(division, codes)))
    found.sides = [Side(term_of(it), [it.words(part) for part in it.parts]) for it in axes]
    return joined_line(found, axes, start) if len(axes) == 1 else found


def start_of(division: Division) -> Codes | None:
    """Returns the region of all rows, or None if not all pieces are known."""
    if not division.is_whole or not division.pieces:
        return None
    return {coded: (coded.full, not getattr(coded, "base", coded).not_null) for coded in division.pieces[0].codes}


def axes_of(division: Division, start: Codes) -> list[Axis]:
    """Returns the terms in which pieces differ. If only a remainder of a column matters, the column is not a term
    itself."""
    found = []
    for coded in start:
        known = [piece.codes[coded] for piece in division.pieces]
        has_null = any(not found or null != start[coded][1] for found, null in known)
        is_told = any(isinstance(it, Remainders) and it.base is coded and is_split(division, it) for it in start)
        if is_split(division, coded) or has_null and not isinstance(coded, Remainders) and not is_told:
            found.append(Axis(coded, parts_of(division, coded)))
    return found


def is_split(division: Division, coded: Coding) -> bool:
    return any(piece.codes[coded][0] not in ((), coded.full) for piece in division.pieces)


def parts_of(division: Division, coded: Coding) -> list[Part]:
    """Returns the parts of a term that no piece subdivides, in order; NULL comes last."""
    all_of_it = [piece.codes[coded][0] for piece in division.pieces]
    begins = {coded.low, *(low for found in all_of_it for low, _ in found), *(
        high + 1 for found in all_of_it for _, high in found if high < coded.high)}
    listed = sorted(begins)
    pieces = [(low, high - 1) for low, high in zip(listed, [*listed[1:], coded.high + 1])]
    groups: dict[tuple[bool, ...], list[tuple[int, int]]] = {}
    for piece in pieces:
        groups.setdefault(tuple(bool(ranges.intersection(found, [piece])) for found in all_of_it), []).append(piece)
    is_ordered = not isinstance(coded, (Labels, Remainders, Truths, Nulls))
    parts: list[Part] = [(it,) for it in pieces] if is_ordered else [ranges.normal(it) for it in groups.values()]
    base: Coding = getattr(coded, "base", coded)
    return [*parts, *([None] if not base.not_null else [])]


def term_of(axis: Axis) -> str:
    """Returns what the filters test of a row."""
    subject = parser.shown(axis.coded.subject.sql)
    modulus = axis.coded.modulus
    return f"{subject} % {modulus}" if modulus else subject


def combinations(axes: Sequence[Axis]) -> Iterator[tuple[Part, ...]]:
    """Yields all cells, row by row."""
    if not axes:
        yield ()
        return
    for part in axes[0].parts:
        for others in combinations(axes[1:]):
            yield (part, *others)


def takers_at(division: Division, codes: Codes) -> list[str] | None:
    """Returns who gets the rows of a cell, or None if there are none."""
    piece = next((it for it in division.pieces if overlap(it.codes, codes) is not None), None)
    if piece is None or division.allowed(overlap(piece.codes, codes) or codes) is None:
        return None
    return list(piece.takers)


def overlap(one: Codes, other: Codes) -> Codes | None:
    """Returns the intersection of two regions, or None."""
    found: Codes = {}
    for coded, (its, null) in one.items():
        found[coded] = ranges.intersection(its, other[coded][0]), null and other[coded][1]
    for coded, (its, null) in found.items():
        base_ranges, base_null = found[getattr(coded, "base", coded)]
        if not base_null and (not its or not base_ranges):
            return None
    return found


def joined_line(found: Map, axes: Sequence[Axis], start: Codes) -> Map:
    """Joins neighbouring cells with the same subscribers."""
    axis = axes[0]
    kept: list[tuple[Part, list[str] | None]] = []
    for part, cell in zip(axis.parts, found.cells):
        if kept and part is not None and kept[-1][0] is not None and kept[-1][1] == cell.takers:
            kept[-1] = ranges.union(kept[-1][0], part), cell.takers
        else:
            kept.append((part, cell.takers))
    cells = [Cell(explaining.text_of(Region(axis.within(start, part), "")), takers) for part, takers in kept]
    return Map([Side(found.sides[0].term, [axis.words(part) for part, _ in kept])], cells)


def listed(division: Division) -> Map:
    """Returns each piece on a line: first those that reach nobody, then those that reach several."""
    pieces = sorted(division.pieces, key=rank)
    cells = [Cell(it.condition, list(it.takers)) for it in pieces[:MOST_LINES]]
    return Map([], cells, len(pieces[MOST_LINES:]))


def rank(piece: Piece) -> int:
    return {0: 0, 1: 2}.get(len(piece.takers), 1)
