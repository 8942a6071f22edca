"""What is known about a row whose atoms have certain values: a path of atoms with their values, from the root on."""

from functools import cache

from .catalogs import Filter, Table, Value
from .filters import Truth, both, either, literals_of, negated, parts_of, said, term_of
from .values import ENDS

Path = tuple[tuple[Filter, Truth], ...]
Term = tuple[int, int]


class Known:
    """What follows from a path about filters, terms and columns."""

    def __init__(self, table: Table, path: Path) -> None:
        self.table = table
        self.path = path
        self.values: dict[Filter, Truth] = {}
        for atom, value in path:
            self.values.setdefault(atom, value)

    def possible(self, it: Filter) -> set[Truth]:
        """Returns the values that a filter may have."""
        head = it[0]
        if head == "const":
            return {it[1]}
        if head == "not":
            return {negated(value) for value in self.possible(it[1])}
        if head in ("and", "or"):
            join = both if head == "and" else either
            left, right = (self.possible(part) for part in parts_of(it))
            return {join(one, other) for one in left for other in right}
        if head == "is":
            return {value is it[1] for value in self.possible(it[2])}
        if it in self.values:
            return {self.values[it]}
        return {True, False} if head in ("null", "distinct") else {True, False, None}

    def is_null(self, column: int) -> bool:
        """Returns whether the path says that the column is null."""
        return any(
            atom[1] == column and (value is True if atom[0] == "null" else atom[0] != "distinct" and value is None)
            for atom, value in self.path)

    def is_not_null(self, column: int) -> bool:
        """Returns whether the column is declared NOT NULL, or the path says that it is not null."""
        return is_declared(self.table, column) or any(
            atom[1] == column and tells_value(atom, value) for atom, value in self.path)

    def is_empty(self, term: Term) -> bool:
        """Returns whether no row can satisfy what is known about a term: its column is both null and not null, or it is
        not null and has no value left."""
        column = term[0]
        if not self.is_not_null(column):
            return False
        return self.is_null(column) or not self.has_value(term)

    def has_value(self, term: Term) -> bool:
        """Returns whether some value of the term satisfies all that is known about it."""
        facts = [
            (atom, value) for atom, value in self.path
            if atom[0] != "null" and term_of(atom) == term and value is not None]
        literals = frozenset(literal for atom, _ in facts for literal in literals_of(atom))
        kind = self.table.columns[term[0]].kind
        return any(
            all(said(atom, candidate) is value for atom, value in facts)
            for candidate in candidates(kind, term[1], literals))

    def is_never_null(self, atom: Filter) -> bool:
        """Returns whether the path says that an atom is null that never is."""
        declared = atom[0] in ("null", "distinct") or is_declared(self.table, atom[1])
        return declared and (atom, None) in self.path


def is_declared(table: Table, column: int) -> bool:
    """Returns whether a column is declared to have no nulls."""
    return table.columns[column].not_null or column in table.key


def tells_value(atom: Filter, value: Truth) -> bool:
    """Returns whether this value of an atom implies that its column is not null."""
    return value is False if atom[0] in ("null", "distinct") else value is not None


@cache
def candidates(kind: str, divisor: int, literals: frozenset[Value]) -> list[Value]:
    """Returns values that represent all values of a term, if nothing but these literals distinguishes values."""
    if kind == "boolean":
        return [False, True]
    if kind == "text":
        other = "x" + max(literals, key=len, default="")
        return [*literals, other]
    low, high = -ENDS[kind], ENDS[kind] - 1
    if divisor:
        low, high = max(low, 1 - abs(divisor)), min(high, abs(divisor) - 1)
    near = {low, high} | {literal + more for literal in literals for more in (-1, 0, 1)}
    return [value for value in near if low <= value <= high]
