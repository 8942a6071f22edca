"""Types of the server: the meaning of a constant, and how a value is written as a constant that can be inserted."""

import struct
from fractions import Fraction
from typing import Any

from pgshard_tools.judging import points, wholes
from pgshard_tools.judging.faults import Unread
from pgshard_tools.judging.points import Point

# The number of bits of each integer type, and its name in a catalog that pgshard reads.
INTEGERS = {"int2": (16, "smallint"), "int4": (32, "integer"), "int8": (64, "bigint")}
NUMBERS = {*INTEGERS, "numeric", "float4", "float8"}
TIMES = {"date", "timestamp", "timestamptz", "time"}
ROUNDED = {"timestamp", "timestamptz"}
TEXTS = {"text", "varchar", "bpchar"}
# Types in which two values are equal exactly if the server prints the same text for both.
LABELS = {"name", "char", "bytea", "macaddr8"}
# In these types, a value is a whole number without a unit.
WHOLE = {"uuid", "interval", "inet", "cidr", "macaddr", "pg_lsn"}
ORDERED = NUMBERS | TIMES | WHOLE | {"text", "varchar", "bpchar"}


# The types of each row are compared with each other by operators that judge knows the order or equality of.
COMPARED = (
    {"int2", "int4", "int8"}, {"float4", "float8"}, {"numeric"}, {"date", "timestamp"}, {"timestamptz"}, {"time"},
    {"uuid"}, {"text"}, {"bpchar"}, {"bool"}, {"name", "text"}, {"char"}, {"bytea"}, {"inet"}, {"macaddr"},
    {"macaddr8"}, {"anyenum"}, {"interval"}, {"pg_lsn"})


def comparable(one: str, other: str = "") -> bool:
    """Returns whether judge knows the meaning of comparisons that are declared for two types."""
    return any(one in it and other in it for it in COMPARED)


def family(type: str) -> str:
    """Returns the family of a type. Types of one family are compared with each other."""
    if type in NUMBERS:
        return "number"
    return {"varchar": "text", "cidr": "inet"}.get(type, type)


def is_ordered(type: str) -> bool:
    return type in ORDERED


def binary_float(text: str, form: str) -> Point:
    """Returns the exact number that a float represents, which may differ from the printed one."""
    point = points.number_point(text)
    if not point.is_finite:
        return point
    number = float(text)
    return Point(0, Fraction(struct.unpack("f", struct.pack("f", number))[0] if form == "f" else number))


def collation_sql(name: str) -> str:
    """Returns a collation in SQL. The name of one that was created in the database already has its schema and
    quotes."""
    return name if name.startswith('"') else '"' + name.replace('"', '""') + '"'


def quoted(text: str) -> str:
    return "'" + text.replace("'", "''") + "'"


def value_of(type: str, text: str) -> Any:
    """Returns the value of a constant of a type: a point, a text, or a boolean."""
    try:
        match type:
            case "float4" | "float8":
                return binary_float(text, "f" if type == "float4" else "d")
            case "int2" | "int4" | "int8" | "numeric":
                return points.number_point(text)
            case "date":
                return points.date_point(text)
            case "timestamp" | "timestamptz":
                return points.time_point(text)
            case "time":
                return points.clock_point(text)
            case "uuid":
                return points.uuid_point(text)
            case "interval" | "inet" | "cidr" | "macaddr" | "pg_lsn":
                return wholes.point_of(type, text)
            case "bool":
                return text in ("t", "true")
            case "bpchar":
                return text.rstrip(" ")
    except (ValueError, AttributeError, OverflowError) as fault:
        raise Unread(f"the constant {quoted(text)} of type {type}") from fault
    return text


def text_of(type: str, value: Any) -> str:
    """Returns a value as the server reads it, without quotes."""
    match type:
        case "date":
            return points.date_text(value)
        case "timestamp":
            return points.time_text(value)
        case "timestamptz":
            return points.time_text(value, "+00")
        case "time":
            return points.clock_text(int(value.value))
        case "uuid":
            return points.uuid_text(value)
        case "interval" | "inet" | "cidr" | "macaddr" | "pg_lsn":
            return wholes.text_of(type, value)
        case "bool":
            return "TRUE" if value else "FALSE"
        case "float4" | "float8" if value.is_finite:
            return repr(float(value.value))
    return points.number_text(value) if isinstance(value, Point) else str(value)


def literal(type: str, value: Any) -> str:
    """Returns a value as an SQL constant."""
    if value is None:
        return "NULL"
    text = text_of(type, value)
    if type == "bool" or type in NUMBERS and value.is_finite:
        return text
    return readable(type, text)


def readable(type: str, text: str) -> str:
    """Returns what the server prints for a value, as a constant that it can read. The last timestamp, which it cannot
    read, is written as the previous one, rounded."""
    if type in ROUNDED and text == text_of(type, points.finite(points.LAST_TIME)):
        return f"{quoted(text_of(type, points.finite(points.LAST_READ)))}::{type}(0)"
    return quoted(text)


def number_form(type: str, modifier: int) -> tuple[int, int] | None:
    """Returns the digits and the scale of a numeric with a precision, or None."""
    if type != "numeric" or modifier < 4:
        return None
    scale = (modifier - 4) & 0x7FF
    return (modifier - 4) >> 16 & 0xFFFF, (scale ^ 1024) - 1024


def length_limit(type: str, modifier: int) -> int | None:
    """Returns how many characters a text may have, or None."""
    return modifier - 4 if type in ("varchar", "bpchar") and modifier >= 4 else None


# A plain value of each type, for a NOT NULL column that does not matter.
PLAIN = {
    "bool": "FALSE", "date": "'2000-01-01'", "timestamp": "'2000-01-01 00:00:00'", "time": "'00:00:00'",
    "timestamptz": "'2000-01-01 00:00:00+00'", "timetz": "'00:00:00+00'", "interval": "'0 days'",
    "uuid": "'00000000-0000-0000-0000-000000000000'", "json": "'{}'", "jsonb": "'{}'", "bytea": "'\\x'",
    "inet": "'0.0.0.0'", "cidr": "'0.0.0.0/32'", "macaddr": "'00:00:00:00:00:00'", "point": "'(0,0)'",
    "macaddr8": "'00:00:00:00:00:00:00:00'", "money": "0", "oid": "0", "xml": "''", "tsvector": "''", "tsquery": "''",
    "bit": "B'0'", "varbit": "B'0'", "pg_lsn": "'0/0'", "line": "'{1,0,0}'", "lseg": "'[(0,0),(1,0)]'",
    "box": "'(1,1),(0,0)'", "path": "'[(0,0)]'", "polygon": "'((0,0))'", "circle": "'<(0,0),1>'", "jsonpath": "'$'",
    "tid": "'(0,0)'", "xid": "'0'", "xid8": "'0'", "cid": "'0'", "pg_snapshot": "'1:1:'", "txid_snapshot": "'1:1:'",
}


def is_plain(column: dict[str, Any]) -> bool:
    """Returns whether it is known that a column's type accepts its plain value."""
    type = column["type"]
    return column["kind"] == "b" and (type in PLAIN or type in NUMBERS or type in TEXTS or type in ("name", "char"))


def plain_literal(column: dict[str, Any]) -> str:
    """Returns a constant that a column accepts, unless its domain or its constraints refuse it."""
    type = column["type"]
    if column["kind"] == "e":
        return quoted(column["label"] or "")
    if column["written"].endswith("[]") or column["kind"] == "m":
        return "'{}'"
    if column["kind"] == "r" or type.endswith("range"):
        return "'empty'"
    if column["kind"] == "d":
        base = column["base"] or ""
        return "0" if base.startswith(("integer", "bigint", "smallint", "numeric", "real", "double")) else "''"
    if type == "bit" and column["modifier"] > 0:
        return f"B'{'0' * column['modifier']}'"
    if type in NUMBERS:
        return "0"
    return PLAIN.get(type, "''")
