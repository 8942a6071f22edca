"""Conversions of operands: lists from their texts, conditions to values, and texts to the order of a collation."""

from dataclasses import replace
from typing import Any

from pgshard_tools.judging.constants import array_parts, as_value, typed
from pgshard_tools.judging.faults import Unread
from pgshard_tools.judging.formulas import Compare, Const, Formula, Subject, tested
from pgshard_tools.judging.operands import Array, Choice, Derived, Extreme, Operand, Ref, Truth, Value, Whole
from pgshard_tools.judging.parser import kind_of, written
from pgshard_tools.judging.points import finite
from pgshard_tools.judging.server_types import LABELS, ORDERED

SORTED = ORDERED | LABELS | {"bool", "jsonb", "timetz", "money", "bit", "varbit"}


def is_sorted(operand: Operand) -> bool:
    """Returns whether the server can find the greatest of such operands, that is, whether their type has an order."""
    if isinstance(operand, Ref):
        return operand.type in SORTED or bool(operand.subject.labels)
    return isinstance(operand, (Whole, Derived, Value))


def listed(node: Any, type: str, text: str | None, is_enum: bool) -> Array:
    """Returns a list, given its text."""
    parts = array_parts(text) if text is not None else None
    if parts is None:
        raise Unread(written(node), "write the list with IN")
    return Array(tuple(as_value(typed(type, part, is_enum)) for part in parts))


def text_in(node: Any) -> str | None:
    """Returns the text of a constant that is written with its type."""
    constant = node.arg if kind_of(node) == "TypeCast" else None
    is_text = kind_of(constant) == "A_Const" and not constant.isnull and kind_of(constant.val) == "String"
    return constant.val.sval if is_text and constant is not None else None


def of_type(subject: Subject) -> Operand:
    """Returns a subject as an operand. A boolean subject is a condition."""
    return Truth(Compare(subject, "=", True)) if subject.type == "bool" else Ref(subject, subject.type)


def collated(operand: Operand, collation: str) -> Operand:
    """Returns an operand whose texts are ordered as the server compares them in this context."""
    match operand:
        case Ref(subject=subject) if subject.collation is not None:
            return replace(operand, subject=replace(subject, collation=collation))
        case Derived(ref=ref) if ref.subject.collation is not None:
            return replace(operand, ref=replace(ref, subject=replace(ref.subject, collation=collation)))
        case Choice():
            return replace(operand, one=collated(operand.one, collation), other=collated(operand.other, collation))
        case Extreme():
            return replace(operand, parts=tuple(collated(it, collation) for it in operand.parts))
    return operand


def truth_of(operand: Operand) -> Formula:
    if isinstance(operand, Ref):
        return Compare(operand.subject, "=", True)
    if isinstance(operand, Value):
        return Const(operand.value)
    raise Unread("a condition")


def cast_truth(form: str, type: str, operand: Truth) -> Operand:
    """Returns a condition as a boolean, or as 1 and 0. It is NULL if the condition is."""
    if type == "bool":
        return operand
    if type == "int4":
        zero = Choice(tested("FALSE", operand.formula), Value("int4", finite(0)), Value("int4", None))
        return Choice(operand.formula, Value("int4", finite(1)), zero)
    if type == "text":
        no = Choice(tested("FALSE", operand.formula), Value("text", "false"), Value("text", None))
        return Choice(operand.formula, Value("text", "true"), no)
    raise Unread(form, "a condition that is cast to another type")
