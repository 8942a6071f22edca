"""The values of filters for rows, and the parts of filters."""

import operator

from .catalogs import Filter, Row, Value

COMPARED = {
    "=": operator.eq, "<>": operator.ne, "<": operator.lt, "<=": operator.le, ">": operator.gt, ">=": operator.ge}

# The heads of filters that are not atoms.
CONNECTIVES = ("const", "not", "and", "or", "is")

Truth = bool | None


def remainder(number: int, divisor: int) -> int:
    """The remainder of a division that truncates toward zero."""
    rest = abs(number) % abs(divisor)
    return rest if number >= 0 else -rest


def negated(value: Truth) -> Truth:
    """NOT."""
    return None if value is None else not value


def both(left: Truth, right: Truth) -> Truth:
    """AND."""
    if left is False or right is False:
        return False
    return None if left is None or right is None else True


def either(left: Truth, right: Truth) -> Truth:
    """OR."""
    if left is True or right is True:
        return True
    return None if left is None or right is None else False


def meaning(it: Filter, row: Row) -> Truth:
    """Returns the value of a filter for a row that fits its table."""
    head = it[0]
    if head == "and":
        return both(meaning(it[1], row), meaning(it[2], row))
    if head == "or":
        return either(meaning(it[1], row), meaning(it[2], row))
    if head == "not":
        return negated(meaning(it[1], row))
    if head == "is":
        return meaning(it[2], row) is it[1]
    return it[1] if head == "const" else of_value(it, row[it[1]])


def of_value(atom: Filter, value: Value) -> Truth:
    """Returns the value of an atom for a value of its column."""
    if atom[0] == "null":
        return value is None
    if value is None:
        return True if atom[0] == "distinct" else None
    return said(atom, remainder(value, atom[2]) if atom[2] else value)


def said(atom: Filter, value: Value) -> bool:
    """Returns the value of an atom, other than a test for NULL, for a value of its term."""
    if atom[0] == "cmp":
        return COMPARED[atom[3]](value, atom[4])
    if atom[0] == "in":
        return value in atom[3]
    if atom[0] == "between":
        return atom[3] <= value <= atom[4]
    return value != atom[3]


def parts_of(it: Filter) -> tuple[Filter, ...]:
    """Returns the filters that a connective joins."""
    if it[0] == "const":
        return ()
    return it[2:] if it[0] == "is" else it[1:]


def nodes_of(it: Filter) -> int:
    """Returns the number of a filter's nodes."""
    return 1 + (sum(nodes_of(part) for part in parts_of(it)) if it[0] in CONNECTIVES else 0)


def all_atoms(it: Filter) -> list[Filter]:
    """Returns the atoms in the order in which they are written, with duplicates."""
    if it[0] in CONNECTIVES:
        return [atom for part in parts_of(it) for atom in all_atoms(part)]
    return [it]


def atoms_of(*filters: Filter) -> list[Filter]:
    """Returns the atoms in the order of their first appearance."""
    return list(dict.fromkeys(atom for it in filters for atom in all_atoms(it)))


def term_of(atom: Filter) -> tuple[int, int]:
    """Returns the column and the divisor of an atom."""
    return atom[1], 0 if atom[0] == "null" else atom[2]


def terms_of(*filters: Filter) -> list[tuple[int, int]]:
    """Returns the terms in the order of their first appearance."""
    return list(dict.fromkeys(term_of(atom) for atom in atoms_of(*filters)))


def columns_of(it: Filter) -> list[int]:
    """Returns the columns in the order of their first appearance."""
    return list(dict.fromkeys(atom[1] for atom in all_atoms(it)))


def literals_of(atom: Filter) -> tuple[Value, ...]:
    """Returns the literals that an atom names."""
    return {"null": (), "in": atom[-1], "between": atom[3:]}.get(atom[0], atom[-1:])
