"""A plain search for the certificate of a table, and for rows that no subscriber or several get."""

import itertools

from .catalogs import Filter, Row, Table, Value
from .certificates import Node, Walk
from .filters import literals_of, term_of
from .knowledge import Known, Path, candidates, is_declared
from .passing import owners

# The limits at which a search gives up.
MOST_NODES = 2_000
MOST_ROWS = 2_000


class GaveUp(Exception):
    """There is no certificate, or it has too many nodes for this search."""


class Maker:
    """Splits the rows by one atom after another, until each part has an owner or no rows."""

    def __init__(self, table: Table, shares: list[str | Filter | None]) -> None:
        self.walk = Walk(table, shares)
        self.nodes: list[Node] = []

    def make(self) -> list[Node]:
        """Returns a certificate."""
        self.add(())
        return self.nodes

    def add(self, path: Path) -> None:
        """Adds the nodes for the rows that satisfy a path."""
        if len(self.nodes) > MOST_NODES:
            raise GaveUp
        known = Known(self.walk.table, path)
        leaf = self.leaf(path, known)
        if leaf is not None:
            self.nodes.append(leaf)
            return
        open_atoms = [number for number, atom in enumerate(self.walk.atoms) if atom not in known.values]
        if not open_atoms:
            raise GaveUp
        number = open_atoms[0]
        self.nodes.append(("s", number))
        for value in (True, False, None):
            self.add((*path, (self.walk.atoms[number], value)))

    def leaf(self, path: Path, known: Known) -> Node | None:
        """Returns the leaf for a path, if there is one."""
        if path:
            atom, _ = path[-1]
            if known.is_never_null(atom):
                return "n", self.walk.atoms.index(atom)
            for number, term in enumerate(self.walk.terms):
                if term[0] == atom[1] and known.is_empty(term):
                    return "e", number
        for number in range(len(self.walk.shares)):
            if self.walk.owner_fault(number, known) is None:
                return "o", number
        return None


def certificate(table: Table, shares: list[str | Filter | None]) -> list[Node] | None:
    """Returns a certificate, if the search finds one."""
    try:
        return Maker(table, shares).make()
    except GaveUp:
        return None


def speaking_rows(table: Table, shares: list[str | Filter | None]) -> list[Row] | None:
    """Returns rows that represent all rows of a table, or None if there are too many, or if filters use a column
    together with its remainders."""
    walk = Walk(table, shares)
    columns = [list(values_of(walk, column)) for column in range(len(table.columns))]
    number = 1
    for values in columns:
        number *= len(values)
    terms = {term_of(atom) for atom in walk.atoms if atom[0] != "null"}
    divided = {column for column, divisor in terms if divisor}
    if number > MOST_ROWS or len([term for term in terms if term[0] in divided]) > len(divided):
        return None
    return list(itertools.product(*columns))


def values_of(walk: Walk, column: int) -> list[Value]:
    """Returns values that represent all values of a column."""
    found: dict[Value, None] = {} if is_declared(walk.table, column) else {None: None}
    kind = walk.table.columns[column].kind
    atoms = [atom for atom in walk.atoms if atom[0] != "null" and atom[1] == column]
    for divisor in {atom[2] for atom in atoms} or {0}:
        literals = frozenset(literal for atom in atoms if atom[2] == divisor for literal in literals_of(atom))
        found |= dict.fromkeys(candidates(kind, divisor, literals))
    return list(found)


def counter_row(table: Table, shares: list[str | Filter | None]) -> Row | None | bool:
    """Returns a row that no subscriber or several get, None if there is none, or False if that is not known."""
    rows = speaking_rows(table, shares)
    if rows is None:
        return False
    return next((row for row in rows if len(owners(shares, row)) != 1), None)
