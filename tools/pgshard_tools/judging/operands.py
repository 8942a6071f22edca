"""The possible sides of a comparison."""

from dataclasses import dataclass, field
from typing import Any, Callable, TypeAlias

from pgshard_tools.judging.formulas import Formula, Subject
from pgshard_tools.judging.steps import Step


@dataclass(frozen=True)
class Value:
    """A constant of a type, or None for NULL."""

    type: str
    value: Any


@dataclass(frozen=True)
class Array:
    """A list of operands, or None for NULL."""

    parts: "tuple[Operand, ...] | None"


@dataclass(frozen=True)
class Ref:
    """A column, or another subject, as a value of a type to which it is cast unchanged."""

    subject: Subject
    type: str


@dataclass(frozen=True)
class Whole:
    """The result of some steps for a column of whole numbers, as a value of an integer type. It is NULL exactly if the
    column is. If the result of a step does not fit its type, the server fails; here, the steps just continue."""

    subject: Subject
    steps: tuple[Step, ...]
    type: str
    sql: str = field(default="", compare=False)


@dataclass(frozen=True)
class DayOf:
    """The date of a timestamp."""

    subject: Subject


@dataclass(frozen=True)
class Derived:
    """A function of an operand. Some comparisons of it with constants (= < <=) are comparisons of that operand; for
    others it returns None, and for these the function is a column of its own. They may depend on the collation of that
    column. The result may be a whole number of another type, which it does not fit if a formula is TRUE."""

    ref: Ref
    means: "Callable[[Ref, str, Value], Formula | None]" = field(compare=False)
    too_large: Formula | None = field(default=None, compare=False)


@dataclass(frozen=True)
class Choice:
    """One operand if a condition is TRUE, otherwise the other."""

    condition: Formula
    one: "Operand"
    other: "Operand"


@dataclass(frozen=True)
class Extreme:
    """The greatest or the least of the operands that are not NULL; NULL if all of them are."""

    is_greatest: bool
    parts: "tuple[Operand, ...]"


@dataclass(frozen=True)
class Truth:
    """A condition."""

    formula: Formula


Operand: TypeAlias = Value | Array | Ref | Whole | DayOf | Derived | Choice | Extreme | Truth
