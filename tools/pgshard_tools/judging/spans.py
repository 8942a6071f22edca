"""Constant ranges: a value is in one if it is between its ends."""

import re

from pgshard_tools.judging import comparing
from pgshard_tools.judging.constants import as_value, typed
from pgshard_tools.judging.formulas import Formula, both, negation
from pgshard_tools.judging.operands import Operand, Value
from pgshard_tools.judging.points import LEAST

ELEMENTS = {
    "int4range": "int4", "int8range": "int8", "numrange": "numeric", "daterange": "date", "tsrange": "timestamp",
    "tstzrange": "timestamptz"}
END = r'(?:"((?:[^"\\]|\\.|"")*)"|([^",()\[\]]*))'
RANGE = re.compile(rf"([\[(]){END},{END}([\])])")


def contains(form: str, range: Operand, element: Operand) -> Formula | None:
    """Returns whether a range contains an element, or None if the range is not a known constant."""
    if not isinstance(range, Value) or range.type not in ELEMENTS or isinstance(element, Value):
        return None
    if range.value is None:
        return comparing.UNKNOWN
    type = ELEMENTS[range.type]
    never = comparing.with_constant(form, "<", element, Value(type, LEAST))
    if range.value == "empty":
        return never
    found = RANGE.fullmatch(range.value)
    if found is None:
        return None
    opening, *ends, closing = found.groups()
    low, high = (plain if plain is not None else quoted for quoted, plain in (ends[:2], ends[2:]))
    parts = [negation(never)]
    if low:
        parts.append(comparing.with_constant(form, ">=" if opening == "[" else ">", element, end(type, low)))
    if high:
        parts.append(comparing.with_constant(form, "<=" if closing == "]" else "<", element, end(type, high)))
    return both(*parts[1:]) if len(parts) > 1 else parts[0]


def end(type: str, text: str) -> Value:
    value = as_value(typed(type, text, is_enum=False))
    assert isinstance(value, Value)
    return value
