"""Immutable functions and operators of the server: each use gets a column of its own.

About such a column, only its type is known, when it is NULL, and that equal SQL texts have equal values. So only a
proof counts if such a column is named. The server says which function is called, its result type, and whether it is
strict; the tables in signatures.py add what the server does not say. If a function may fail, that is recorded, since a
filter that fails ends the replication.
"""

from dataclasses import replace
from typing import Callable, Protocol, Sequence, TypeAlias

from pgshard_tools.judging.calls import Call
from pgshard_tools.judging.faults import Unread
from pgshard_tools.judging.formulas import Formula, IsNull, Not, Subject, Within, leaves_of
from pgshard_tools.judging.operands import Array, Choice, DayOf, Derived, Operand, Ref, Value, Whole
from pgshard_tools.judging.signatures import ELEMENTS, FUNCTIONS, NAMES, OPERATORS, PARTS, Row


class Evaluating(Protocol):
    """The server, which evaluates an expression without columns, or fails."""

    def is_evaluated(self, sql: str) -> bool: ...


class Noting(Protocol):
    """Records when the server fails: if a formula is TRUE, or None if that is not known."""

    def note(self, form: str, where: Formula | None, columns: Sequence[str]) -> None: ...


def call(found: Call, form: str, arguments: Sequence[Operand], server: Evaluating, failing: Noting) -> Operand:
    """Reads a function of the server, according to the table of signatures."""
    row = FUNCTIONS.get(found.signature)
    if row is None:
        raise Unread(form, advice_of(found))
    return checked(found, row, form, arguments, server, failing)


def operator(found: Call, name: str, form: str, arguments: Sequence[Operand], server: Evaluating,
             failing: Noting) -> Operand:
    """Reads an operator of the server, according to the table of signatures. `name` is its negator, if it is a
    negation."""
    row = OPERATORS.get(f"{name}({','.join(found.arguments)})")
    if row is None:
        raise Unread(form, advice_of(found))
    return checked(found, row, form, arguments, server, failing)


def checked(found: Call, row: Row, form: str, arguments: Sequence[Operand], server: Evaluating,
            failing: Noting) -> Operand:
    """Returns the column of its own, if the server agrees with the table. Records where the function may fail."""
    if not found.is_immutable or not (found.is_strict or row.null_at):
        raise Unread(form, "the server does not say that it is immutable, and NULL if an argument is")
    others = [it for place, it in enumerate(arguments) if place not in row.null_at] if row.null_at else []
    if not all(isinstance(it, Value) and it.value is not None for it in others):
        raise Unread(form, "an argument that is not a constant")
    result = opaque(form, found.result, row.is_total, arguments)
    if (row.fails or not is_within(found, row, form, arguments, server)) and isinstance(result, Ref):
        failing.note(form, None, result.subject.columns)
    return result


def is_within(found: Call, row: Row, form: str, arguments: Sequence[Operand], server: Evaluating) -> bool:
    """Returns whether the arguments are valid. An invalid constant makes each row fail, and is not read."""
    is_so = True
    for (place, limit), argument in ((it, arguments[it[0]]) for it in row.limits if it[0] < len(arguments)):
        if not LIMITS[limit](argument, found, server):
            is_so = False
            if not row.fails_past_limits or isinstance(argument, Value) and limit != "short":
                raise Unread(form, ADVICE[limit])
    return is_so


def is_number(operand: Operand, found: Call, server: Evaluating) -> bool:
    return isinstance(operand, Value) and operand.type == "int4"


def is_length(operand: Operand, found: Call, server: Evaluating) -> bool:
    return is_number(operand, found, server) and (whole(operand) is None or (whole(operand) or 0) >= 0)


def is_field(operand: Operand, found: Call, server: Evaluating) -> bool:
    return is_number(operand, found, server) and whole(operand) != 0


def whole(operand: Operand) -> int | None:
    """Returns a constant's number, or None for NULL."""
    value = operand.value if isinstance(operand, Value) else None
    return None if value is None else int(value.value)


def is_part(operand: Operand, found: Call, server: Evaluating) -> bool:
    """Returns whether each value of the type has the part with this name."""
    name = operand.value if isinstance(operand, Value) else None
    return name in PARTS.get(found.arguments[1], ())


def is_like(operand: Operand, found: Call, server: Evaluating) -> bool:
    """Accepts a constant pattern whose last backslash escapes something. The server notices that only when matching
    gets that far."""
    if not isinstance(operand, Value):
        return False
    text = operand.value or ""
    return (len(text) - len(text.rstrip("\\"))) % 2 == 0


def is_regex(operand: Operand, found: Call, server: Evaluating) -> bool:
    """Accepts a constant that the server reads as a regular expression."""
    if not isinstance(operand, Value):
        return False
    sql = (operand.value or "").replace("'", "''")
    name = "~*" if found.name.endswith("*") else "~"
    return server.is_evaluated(f"''::text {name} '{sql}'::text")


def is_array(operand: Operand, found: Call, server: Evaluating) -> bool:
    """Accepts a constant list, or a column of a type whose elements are compared without a failure."""
    if isinstance(operand, Array):
        return operand.parts is not None and all(
            isinstance(it, Value) and it.type in ELEMENTS for it in operand.parts)
    return isinstance(operand, Ref) and operand.type.removeprefix("_") in ELEMENTS and operand.type.startswith("_")


def is_short(operand: Operand, found: Call, server: Evaluating) -> bool:
    """Accepts a length far below the greatest length of a text."""
    return is_number(operand, found, server) and (whole(operand) is None or (whole(operand) or 0) <= 10_000)


def is_zone(operand: Operand, found: Call, server: Evaluating) -> bool:
    """Accepts the name of a time zone that the server has."""
    if not isinstance(operand, Value) or not isinstance(operand.value, str):
        return False
    sql = operand.value.replace("'", "''")
    return server.is_evaluated(f"timezone('{sql}'::text, '2000-01-01 00:00:00+00'::timestamptz)")


def is_name(listed: set[str]) -> "Limit":
    """Accepts one of some constants."""
    return lambda operand, found, server: isinstance(operand, Value) and operand.value in listed


def is_constant(operand: Operand, found: Call, server: Evaluating) -> bool:
    return isinstance(operand, Value)


Limit: TypeAlias = Callable[[Operand, Call, Evaluating], bool]
LIMITS: dict[str, Limit] = {
    "number": is_number, "length": is_length, "field": is_field, "part": is_part, "part_or_null": is_part, "like": is_like,
    "regex": is_regex, "array": is_array, "short": is_short, "zone": is_zone, "size": is_constant, "explicit": is_constant,
    **{name: is_name(listed) for name, listed in NAMES.items()}}
ADVICE = {
    "number": "its numbers are not constants", "length": "a length that is negative, or not a constant",
    "field": "a field that is 0, or not a constant", "part": "this part of that type",
    "part_or_null": "this part of that type", "like": "a pattern that ends with a backslash",
    "regex": "a pattern that is no constant, or that the server refuses", "array": "the elements of these lists",
    "zone": "a time zone that is not a constant, or that the server does not know",
    "short": "a length that is not a constant", "size": "a length that is not a constant",
    "explicit": "a length that is not a constant", "code": "an encoding other than hex, base64 and escape",
    "form": "a normal form other than NFC, NFD, NFKC and NFKD", "unit": "a unit of time that judge does not know"}


def member(form: str, arguments: Sequence[Operand]) -> Operand:
    """Reads `x = ANY (column)`, which is NULL if the column is, and possibly otherwise. If x is NULL and the list is
    empty, it is not NULL; so nothing is claimed for an x that may be NULL."""
    if any(isinstance(it, Value) and it.value is None for it in arguments):
        raise Unread(form, "NULL compared with a list in a column")
    found = opaque(form, "bool", False, arguments)
    is_constant = any(isinstance(it, Value) for it in arguments)
    return found if is_constant or not isinstance(found, Ref) else Ref(replace(found.subject, is_strict=False), "bool")


def advice_of(found: Call) -> str:
    return f"{found.signature} is not in judge's table of functions"


def opaque(form: str, type: str, is_total: bool, arguments: Sequence[Operand]) -> Operand:
    """Returns a column of its own. It is NULL if an argument is, since each function here is strict."""
    if any(isinstance(it, Value) and it.value is None for it in arguments):
        return Value(type, None)
    subjects = [subject for it in arguments for subject in subjects_of(form, it)]
    if not subjects:
        raise Unread(form, "all of its arguments are constants")
    columns = dict.fromkeys(name for it in subjects for name in it.columns)
    collation = collation_of(arguments) if type == "text" else None
    is_strict = all(it.is_strict for it in subjects)
    subject = Subject(
        sql=form, type=type, columns=tuple(columns), is_strict=is_strict,
        is_total=is_total and is_strict and all(it.is_total for it in subjects),
        is_never_null=is_total and all(it.is_never_null for it in subjects),
        collation=collation, own_collation=collation)
    return Ref(subject, type)


def subjects_of(form: str, argument: Operand) -> list[Subject]:
    """Returns what an argument is computed from. For the result of a CASE it is only known whether it is never NULL."""
    match argument:
        case Value():
            return []
        case Array():
            if argument.parts is None or not all(isinstance(it, Value) for it in argument.parts):
                raise Unread(form, "a list of values that are not constants")
            return []
        case Derived():
            return [argument.ref.subject]
        case Ref() | Whole() | DayOf():
            if not (argument.subject.is_strict or argument.subject.is_never_null):
                raise Unread(form)
            return [argument.subject]
        case Choice():
            return [replace(it, is_strict=False, is_total=False, is_never_null=is_never_null(argument))
                    for it in subjects_in(form, argument)]
    raise Unread(form, "its argument is a condition")


def subjects_in(form: str, argument: Operand) -> list[Subject]:
    """Returns the subjects of a CASE, including those of its conditions."""
    if not isinstance(argument, Choice):
        return subjects_of(form, argument)
    named = [leaf.subject for leaf in leaves_of(argument.condition) if not isinstance(leaf, Within)]
    return [*named, *subjects_in(form, argument.one), *subjects_in(form, argument.other)]


def is_never_null(argument: Operand) -> bool:
    """Returns whether an operand is never NULL: each branch is a constant, or is taken only if it is not NULL, as in
    coalesce."""
    match argument:
        case Choice(condition=Not(part=IsNull(subject=subject)), one=Ref(subject=own), other=other) if own == subject:
            return is_never_null(other)
        case Choice(one=one, other=other):
            return is_never_null(one) and is_never_null(other)
        case Value():
            return argument.value is not None
    return isinstance(argument, (Ref, Whole, DayOf)) and argument.subject.is_never_null


def collation_of(arguments: Sequence[Operand]) -> str | None:
    """Returns the collation of a text result: that of the texts from which it is computed, or None if these differ."""
    refs = [it.ref if isinstance(it, Derived) else it for it in arguments]
    subjects = [it.subject for it in refs if isinstance(it, Ref)]
    found = {it.collation for it in subjects if it.collation}
    return found.pop() if len(found) == 1 else None if found else "default"
