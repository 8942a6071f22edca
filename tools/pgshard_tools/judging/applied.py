"""Calls about which more is known than for functions in general: what a comparison of the result means for an
argument."""

from dataclasses import dataclass, replace
from typing import Sequence

from pgshard_tools.judging import comparing, functions, moments, networks, prefixes, spans
from pgshard_tools.judging.arithmetic import Failing
from pgshard_tools.judging.calls import Call
from pgshard_tools.judging.formulas import Formula, Subject, negation
from pgshard_tools.judging.meanings import Meanings
from pgshard_tools.judging.operands import Choice, Derived, Operand, Ref, Truth, Value
from pgshard_tools.judging.points import finite
from pgshard_tools.judging.signatures import NAMES, PARTS

PARTS_OF = {f"{name}(text,{type})" for name in ("extract", "date_part") for type in ("date", "timestamp", "time")}
FIRST_LETTERS = {"substr(text,int4,int4)", "substring(text,int4,int4)"}
CONTAINS = {"@>(anyrange,anyelement)", "<@(anyelement,anyrange)"}
DAYS = {"+(date,int4)", "-(date,int4)"}
TIMES = {"+(timestamp,interval)", "-(timestamp,interval)"}
# If there are more arguments, their NULLs are not counted.
MOST_COUNTED = 5


@dataclass
class Context:
    """What is known while an expression is read: the server, where it fails, and where an expression with a column of
    its own is NULL."""

    meanings: Meanings
    failing: Failing
    null_of: comparing.NullOf
    # For each subject, a formula that is TRUE if the subject is NULL, and otherwise FALSE.
    nulls: dict[Subject, Formula]


def function(call: Call, form: str, arguments: Sequence[Operand], context: Context) -> Operand | None:
    """Reads a function call. Returns None if nothing more is known about it."""
    meanings, failing = context.meanings, context.failing
    if call.signature in PARTS_OF:
        return part(call, form, arguments, context)
    match call.signature:
        case "date_trunc(text,timestamp)":
            name = arguments[0].value if isinstance(arguments[0], Value) else None
            if isinstance(name, str) and name in NAMES["unit"] and moments.subject_of(arguments[1]) is not None:
                ref = own(form, call, True, arguments)
                return moments.truncated(form, name, arguments[1], ref, failing) if isinstance(ref, Ref) else ref
        case "timestamp(date)" if moments.subject_of(arguments[0]) is not None:
            ref = own(form, call, True, arguments)
            return moments.as_timestamp(form, arguments[0], ref, failing) if isinstance(ref, Ref) else ref
        case "timezone(text,timestamptz)" if is_utc(arguments[0]) and isinstance(arguments[1], Ref):
            return in_utc(form, arguments[1], failing) if arguments[1].type == "timestamptz" else None
        case "left(text,int4)":
            return beginning(call, form, arguments, functions.whole(arguments[1]), meanings)
        case "starts_with(text,text)":
            found = starts(arguments[0], arguments[1], meanings)
            return Truth(found) if found is not None else None
        case "isfinite(date)" | "isfinite(timestamp)" | "isfinite(timestamptz)" if isinstance(arguments[0], Ref):
            return Truth(negation(moments.is_infinite(form, arguments[0])))
        case "family(inet)":
            return networks.family(form, arguments[0], call.result)
        case "bool(int4)":
            return Truth(comparing.with_constant(form, "<>", arguments[0], Value("int4", finite(0))))
    if call.signature in FIRST_LETTERS and functions.whole(arguments[1]) == 1:
        return beginning(call, form, arguments, functions.whole(arguments[2]), meanings)
    return None


def in_utc(form: str, moment: Ref, failing: Failing) -> Operand:
    """A timestamptz in UTC is the timestamp with the same microsecond. The last timestamptz has no such timestamp."""
    failing.note(form, moments.is_last(form, moment), moment.subject.columns)
    return Ref(moment.subject, "timestamp")


def is_utc(zone: Operand) -> bool:
    return isinstance(zone, Value) and zone.value in ("UTC", "utc", "Etc/UTC")


def own(form: str, call: Call, is_total: bool, arguments: Sequence[Operand]) -> Operand:
    """Returns the column of its own that represents the call."""
    return functions.opaque(form, call.result, is_total, arguments)


def part(call: Call, form: str, arguments: Sequence[Operand], context: Context) -> Operand | None:
    """Reads extract, or date_part. The part of a date is that of its midnight, which is not a timestamp for every
    date."""
    name = arguments[0].value if isinstance(arguments[0], Value) else None
    if not isinstance(name, str) or name not in PARTS[call.arguments[1]] or isinstance(arguments[1], Choice):
        return None
    ref = own(form, call, call.arguments[1] == "time" or moments.subject_of(arguments[1]) is not None, arguments)
    if not isinstance(ref, Ref):
        return ref
    if call.signature == "date_part(text,date)":
        if moments.subject_of(arguments[1]) is None:
            return None
        moments.as_timestamp(form, arguments[1], ref, context.failing)
    found = moments.part(form, name, arguments[1], ref)
    if isinstance(found, Ref) and not found.subject.is_total and ref.subject.is_total:
        context.nulls[found.subject] = moments.where_null(form, arguments[1], context.null_of)
    return found


def as_whole(form: str, type: str, operand: Operand, context: Context) -> Operand | None:
    """Reads a function of whole numbers as a value of a type that has room for them."""
    if type not in ("int4", "int8"):
        return None
    if isinstance(operand, Derived) and operand.too_large is not None:
        found = functions.opaque(form, type, True, [operand])
        context.failing.note(form, operand.too_large, operand.ref.subject.columns)
        return replace(operand, ref=found) if isinstance(found, Ref) else found
    is_whole = isinstance(operand, Ref) and operand.subject.bounds is not None
    return replace(operand, type=type) if isinstance(operand, Ref) and is_whole else None


def beginning(
        call: Call, form: str, arguments: Sequence[Operand], length: int | None, meanings: Meanings) -> Operand | None:
    """Reads a function that returns the first characters of a text."""
    if length is None or length < 1:
        return None
    ref = own(form, call, True, arguments)
    return prefixes.beginning(arguments[0], length, ref, meanings.is_utf8) if isinstance(ref, Ref) else ref


def starts(text: Operand, prefix: Operand, meanings: Meanings) -> Formula | None:
    """Returns whether a text begins with a constant."""
    subject = prefixes.subject_of(text)
    if subject is None or not isinstance(prefix, Value) or not isinstance(prefix.value, str):
        return None
    return prefixes.starts(subject, prefix.value) if prefixes.is_known(prefix.value, meanings.is_utf8) else None


def operator(call: Call, name: str, form: str, one: Operand, other: Operand, span: str | None,
             context: Context) -> Operand | None:
    """Reads an operator. `name` is its negator if it is a negation, and `span` is the text of an interval on the
    right."""
    signature, meanings, failing = f"{name}({','.join(call.arguments)})", context.meanings, context.failing
    found: Formula | None = None
    if signature == "~~(text,text)" and isinstance(other, Value) and isinstance(other.value, str):
        found = prefixes.like(one, other.value, meanings.is_utf8)
    elif signature == "^@(text,text)":
        found = starts(one, other, meanings)
    elif signature in CONTAINS:
        found = spans.contains(form, one, other) if name == "@>" else spans.contains(form, other, one)
    elif call.arguments == ("inet", "inet"):
        found = networks.contains(name, one, other)
    elif signature in DAYS or signature in TIMES:
        return moved(call, form, one, other, span, failing)
    elif signature == "-(date,date)":
        return days_since(call, form, one, other, failing)
    return Truth(found) if found is not None else None


def moved(call: Call, form: str, one: Operand, other: Operand, span: str | None, failing: Failing) -> Operand | None:
    """Reads a date plus or minus a number of days, or a timestamp plus or minus an interval."""
    days = functions.whole(other) if call.arguments[1] == "int4" else None
    steps = (days,) if days is not None else moments.steps_of(span)
    if steps is None or moments.subject_of(one) is None:
        return None
    ref = own(form, call, True, [one])
    by = steps if call.name == "+" else [-it for it in steps]
    return moments.moved(form, one, by, ref, failing) if isinstance(ref, Ref) else ref


def days_since(call: Call, form: str, one: Operand, other: Operand, failing: Failing) -> Operand | None:
    """Reads a date minus a constant date."""
    if not isinstance(other, Value) or other.value is None or not other.value.is_finite:
        return None
    ref = own(form, call, True, [one])
    if moments.subject_of(one) is None or not isinstance(ref, Ref):
        return None
    return moments.days_since(form, one, other.value, ref, failing)


def nulls(arguments: Sequence[Operand], is_of_nulls: bool, null_of: comparing.NullOf, found: int = 0) -> Operand | None:
    """Reads num_nulls or num_nonnulls: the number of arguments that are NULL, or that are not."""
    if len(arguments) > MOST_COUNTED:
        return None
    if not arguments:
        return Value("int4", finite(found))
    is_null = comparing.is_null(arguments[0], null_of)
    counted, other = (nulls(arguments[1:], is_of_nulls, null_of, found + it) for it in (1, 0))
    assert counted is not None and other is not None
    return Choice(is_null, counted, other) if is_of_nulls else Choice(is_null, other, counted)
