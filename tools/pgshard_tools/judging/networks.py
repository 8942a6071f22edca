"""Networks: which addresses are in a constant network, and their family."""

from fractions import Fraction

from pgshard_tools.judging import wholes
from pgshard_tools.judging.formulas import Compare, Formula, Subject, both, either, negation
from pgshard_tools.judging.operands import Derived, Operand, Ref, Value
from pgshard_tools.judging.points import Point, finite
from pgshard_tools.judging.server_types import text_of

TURNED = {">>": "<<", ">>=": "<<="}


def subject_of(operand: Operand) -> Subject | None:
    """Returns a column of addresses."""
    return operand.subject if isinstance(operand, Ref) and operand.subject.type in ("inet", "cidr") else None


def contains(name: str, one: Operand, other: Operand) -> Formula | None:
    """Returns whether an address is in a constant network: the network's addresses are consecutive in the server's
    order."""
    if name in TURNED:
        return contains(TURNED[name], other, one)
    subject = subject_of(one)
    if name not in ("<<", "<<=") or subject is None or not isinstance(other, Value) or other.value is None:
        return None
    first, end = wholes.subnets(text_of("cidr", other.value), name == "<<=")
    if end is not None and first >= end:
        return never(subject)
    from_here = negation(Compare(subject, "<", first))
    return from_here if end is None else both(from_here, Compare(subject, "<", end))


def never(subject: Subject) -> Formula:
    """Returns FALSE, or NULL if the address is: no address is before the first one."""
    return Compare(subject, "<", finite(0))


def family(form: str, operand: Operand, type: str) -> Operand | None:
    """Reads the family, 4 or 6. All addresses of family 4 come before those of 6."""
    found = subject_of(operand)
    if found is None:
        return None
    subject: Subject = found
    is_four = Compare(subject, "<", finite(Fraction(wholes.first_of(6))))

    def means(_: Ref, op: str, constant: Value) -> Formula | None:
        if not isinstance(constant.value, Point):
            return None
        four, six = (holds(op, number, constant.value) for number in (4, 6))
        parts = ([is_four] if four else []) + ([negation(is_four)] if six else [])
        return either(*parts) if len(parts) == 1 else negation(never(subject)) if parts else never(subject)

    return Derived(Ref(Subject(sql=form, type=type, columns=subject.columns), type), means)


def holds(op: str, number: int, point: Point) -> bool:
    own = finite(number)
    return own == point if op == "=" else own < point or op == "<=" and own == point
