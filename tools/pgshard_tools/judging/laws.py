"""What holds for each row because of the meaning of what is compared, before subjects get their codings: formulas that
are never FALSE."""

from collections.abc import Sequence
from typing import Any

from pgshard_tools.judging.formulas import (
    Compare,
    Formula,
    IsNull,
    Subject,
    Within,
    either,
    leaves_of,
    negation,
    same_truth,
)
from pgshard_tools.judging.points import Point, finite
from pgshard_tools.judging.server_types import INTEGERS

# The most constants that are used for the order of two subjects that are compared with each other.
MOST_CONSTANTS = 24


def laws_of(listed: Sequence[Formula | None], nulls: dict[Subject, Formula]) -> list[Formula]:
    """Returns the laws of the subjects that some formulas name. For some subjects it is known when they are NULL."""
    leaves = [leaf for formula in listed if formula is not None for leaf in leaves_of(formula)]
    named = dict.fromkeys(leaf.subject for leaf in leaves if not isinstance(leaf, Within))
    orders = [law for it in named if it.type == "sign" for law in laws_of_order(it, leaves)]
    return [*(same_truth(nulls[it], IsNull(it)) for it in named if it in nulls), *orders]


def laws_of_order(sign: Subject, leaves: Sequence[Any]) -> list[Formula]:
    """Returns laws such as: the lesser of two subjects is not above a constant if the greater one is not. The constants
    are those with which one of the two is compared."""
    pair = [next((it.subject for it in leaves if isinstance(it, Compare) and it.subject.sql == side), None)
            for side in sign.sides]
    listed = sorted({it.value for it in leaves if isinstance(it, Compare) and it.subject in pair
                     and isinstance(it.value, Point)})
    one, other = pair
    if one is None or other is None or len(listed) > MOST_CONSTANTS or not is_alike(one.type, other.type):
        return []
    less, not_more = Compare(sign, "<", finite(0)), Compare(sign, "<=", finite(0))
    found: list[Formula] = []
    for constant in listed:
        found += implied(less, not_more, one, other, constant)
        found += implied(negation(not_more), negation(less), other, one, constant)
    return found


def is_alike(one: str, other: str) -> bool:
    """Returns whether the server compares two types without rounding, and both have the same unit here."""
    return one == other or {one, other} <= {*INTEGERS, "numeric"}


def implied(is_less: Formula, is_not_more: Formula, one: Any, other: Any, constant: Point) -> list[Formula]:
    """Returns what follows for the first of two subjects if the second is below a constant."""
    below, up_to = Compare(one, "<", constant), Compare(one, "<=", constant)
    other_below, other_up_to = Compare(other, "<", constant), Compare(other, "<=", constant)
    return [either(negation(is_less), negation(other_up_to), below),
            either(negation(is_not_more), negation(other_below), below),
            either(negation(is_not_more), negation(other_up_to), up_to)]
