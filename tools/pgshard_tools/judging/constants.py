"""Constants as the server prints them, and casts of constants that change nothing."""

import re
from typing import Any

from pgshard_tools.judging import arithmetic, server_types
from pgshard_tools.judging.faults import Unread
from pgshard_tools.judging.formulas import Const
from pgshard_tools.judging.operands import Operand, Truth, Value
from pgshard_tools.judging.server_types import INTEGERS

# Casts that change no value: to the types on the right.
SAME_VALUE = {
    "int2": {"int2", "int4", "int8", "numeric", "float4", "float8"},
    "int4": {"int4", "int8", "numeric", "float8"},
    "int8": {"int8", "numeric"},
    "numeric": {"numeric"},
    "float4": {"float4", "float8"},
    "float8": {"float8"},
    "text": {"text", "varchar"},
    "varchar": {"text", "varchar"},
    "bpchar": {"bpchar", "text", "varchar"},
    "cidr": {"cidr", "inet"},
    "inet": {"inet"},
}
TEXTS = ("text", "varchar", "bpchar")
# Without quotes, these names denote other types: bit(1), and character(1).
QUOTED = ("bit", "char")
NUMBER = re.compile(r"-?\d+")


def as_value(operand: Operand) -> Operand:
    """Returns a constant condition as a constant."""
    is_constant = isinstance(operand, Truth) and isinstance(operand.formula, Const)
    return Value("bool", operand.formula.value) if is_constant else operand  # type: ignore[union-attr]


def number(text: str) -> Value:
    """Returns a number without a type: an int4 if it fits, and otherwise an int8 or a numeric."""
    point = server_types.value_of("numeric", text)
    if NUMBER.fullmatch(text):
        for type in ("int4", "int8"):
            if arithmetic.fits(int(text), type):
                return Value(type, point)
    return Value("numeric", point)


def typed(type: str, text: str | None, is_enum: bool) -> Operand:
    """Returns a constant of a type, given its text."""
    if text is None:
        return Value(type, None)
    if type == "bool":
        return Truth(Const(server_types.value_of("bool", text)))
    return Value(f"enum {type}", text) if is_enum else Value(type, server_types.value_of(type, text))


def cast_value(form: str, type: str, operand: Value) -> Value:
    """Returns a constant as one of another type, if that changes nothing."""
    if operand.value is None:
        return Value(type, None)
    if operand.type in INTEGERS and type in INTEGERS:
        if not arithmetic.fits(int(operand.value.value), type):
            raise Unread(form, "the constant does not fit the type, so the server fails")
        return Value(type, operand.value)
    if operand.type in TEXTS and type in TEXTS:
        return Value(type, operand.value.rstrip(" ") if "bpchar" in (type, operand.type) else operand.value)
    if type in SAME_VALUE.get(operand.type, ()):
        return Value(type, operand.value)
    if operand.type == "numeric" and type in ("float4", "float8"):
        return Value(type, server_types.value_of(type, server_types.text_of("numeric", operand.value)))
    raise Unread(form, "a cast of a constant")


def text_of(part: Value) -> str:
    """Returns a constant as parser.faithful writes it."""
    text = server_types.literal(part.type, part.value)
    type = f'"{part.type}"' if part.type in QUOTED else part.type
    return text if part.type in INTEGERS or part.type == "text" else f"CAST({text} AS {type})"


def array_parts(text: str) -> list[str | None] | None:
    """Returns the elements of an array's text, with None for NULL; or None if the text is not a plain list."""
    if not (text.startswith("{") and text.endswith("}")) or "{" in text[1:]:
        return None
    parts: list[str | None] = []
    at, inner = 0, text[1:-1]
    while at < len(inner):
        word, at, is_quoted = array_part(inner, at)
        parts.append(None if word == "NULL" and not is_quoted else word)
        at += 1
    return parts


def array_part(inner: str, at: int) -> tuple[str, int, bool]:
    """Returns the element at a place, where it ends, and whether it is quoted."""
    if inner[at] != '"':
        end = inner.find(",", at)
        end = len(inner) if end < 0 else end
        return inner[at:end], end, False
    word, at = [], at + 1
    while inner[at] != '"':
        at += inner[at] == "\\"
        word.append(inner[at])
        at += 1
    return "".join(word), at + 1, True


def is_text(value: Any) -> bool:
    return isinstance(value, str)
