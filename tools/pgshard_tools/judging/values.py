"""Values that a column may contain, near those that filters and constraints name, as SQL expressions."""

import json
import random
import re
from collections.abc import Iterable, Iterator, Sequence
from decimal import Decimal, InvalidOperation

from pgshard_tools.judging import parser
from pgshard_tools.judging.database import Column
from pgshard_tools.judging.faults import Unread
from pgshard_tools.judging.server_types import INTEGERS, quoted, readable

NUMBER = re.compile(r"[-+]?(\d+(\.\d*)?|\.\d+)(e[-+]?\d+)?\Z", re.I)
DAY = re.compile(r"\d{4,}-\d\d-\d\d")
CLOCK = re.compile(r"\d\d:\d\d(:\d\d(\.\d+)?)?\Z")
UUID = re.compile(r"[0-9a-f]{8}(-[0-9a-f]{4}){3}-[0-9a-f]{12}\Z")
MANY = 24

# Extreme values of types for which neighbours are not computed here.
EDGES = {
    "bool": ["true", "false"],
    "interval": ["'0'", "'1 day'", "'-1 day'", "'1 month'", "'30 days'", "'24:00:00'", "'1 microsecond'", "'-1 year'"],
    "json": ["'{}'", "'[]'", "'null'", "'1'", "'\"a\"'"], "jsonb": ["'{}'", "'[]'", "'null'", "'1'", "'\"a\"'"],
    "bytea": ["''", "'\\x00'", "'\\xff'"], "inet": ["'0.0.0.0'", "'10.1.2.3/8'", "'::1'", "'255.255.255.255'"],
    "cidr": ["'0.0.0.0/0'", "'10.0.0.0/8'", "'::1'"], "macaddr": ["'00:00:00:00:00:00'", "'ff:ff:ff:ff:ff:ff'"],
    "bit": ["'0'", "'1'"], "varbit": ["''", "'0'", "'1'", "'101'"],
    "time": ["'00:00'", "'24:00'", "'12:00'"], "timetz": ["'00:00+00'", "'24:00+00'"],
    "date": ["'infinity'", "'-infinity'", "'4713-01-01 BC'", "'2000-02-29'", "'5874897-12-31'"],
    "timestamp": ["'infinity'", "'-infinity'", "'4713-01-01 BC'", "'2000-02-29 23:59:59.999999'",
                  "'294276-12-31 23:59:59.999999'", "'294276-12-31 23:59:59.999999'::timestamp(0)"],
    "timestamptz": ["'infinity'", "'-infinity'", "'4713-01-01 BC'", "'2000-02-29 23:59:59.999999+00'",
                    "'294276-12-31 23:59:59.999999+00'", "'294276-12-31 23:59:59.999999+00'::timestamptz(0)"],
    "uuid": ["'00000000-0000-0000-0000-000000000000'", "'ffffffff-ffff-ffff-ffff-ffffffffffff'"],
    "numeric": ["'NaN'", "'Infinity'", "'-Infinity'", "1e30", "-1e30", "0.5", "-0.5"],
    "float4": ["'NaN'", "'Infinity'", "'-Infinity'", "'-0'", "1e30", "0.1", "-0.5"],
    "float8": ["'NaN'", "'Infinity'", "'-Infinity'", "'-0'", "1e300", "0.1", "-0.5"],
    "text": ["''", "' '", "'a'", "'A'", "'z'", "'é'", "'0'", "'~'", "'%'", "'aaaaaaaaaaaaaaaaaaaa'"],
}
TEXTS = {"varchar", "bpchar", "name", "char"}
NUMBERS = {*INTEGERS, "numeric", "float4", "float8", "money", "oid"}
STEPS = {"date": "1", "timestamp": "interval '1 microsecond'", "timestamptz": "interval '1 microsecond'",
         "time": "interval '1 microsecond'"}


def constants_of(texts: Iterable[str]) -> list[str]:
    """Returns the constants in some expressions, as texts."""
    found: dict[str, bool] = {}
    for text in texts:
        try:
            gather(parser.parsed(text), found)
        except Unread:
            continue
    return list(found)


def gather(node: object, found: dict[str, bool]) -> None:
    """Adds the constants of a tree."""
    if parser.kind_of(node) in ("Integer", "Float", "String"):
        value = next((getattr(node, name) for name in ("ival", "fval", "sval", "val") if hasattr(node, name)), "")
        found[str(value)] = True
    elif isinstance(node, tuple):
        for part in node:
            gather(part, found)
    elif hasattr(node, "__slots__") and isinstance(node, Iterable):
        for name in node:
            if name not in ("names", "funcname", "name", "fields", "collname"):
                gather(getattr(node, str(name)), found)


def values_of(column: Column, constants: Sequence[str], chance: random.Random) -> list[str]:
    """Returns expressions for values of a column, without duplicates. The server may refuse some."""
    kind = column["type"] if column["kind"] != "d" else domain_type(column)
    if column["labels"]:
        found = [quoted(it) for it in column["labels"]]
    elif kind in NUMBERS:
        found = [*numbers(kind, constants, chance), *EDGES.get(kind, ())]
    elif kind in STEPS:
        found = [*moments(kind, constants), *EDGES[kind]]
    elif kind == "uuid":
        found = [*uuids(constants, chance), *EDGES[kind]]
    elif kind in ("json", "jsonb"):
        found = [*EDGES[kind], *objects(constants)]
    elif column["written"].endswith("[]"):
        found = ["'{}'", "'{NULL}'", *arrays(constants)]
    elif kind.endswith("range"):
        found = ["'empty'", "'(,)'", *spans(constants)]
    elif kind == "text" or kind in TEXTS:
        found = [*words(constants, chance), *EDGES["text"]]
    else:
        found = [*EDGES.get(kind, ()), *map(quoted, constants)]
    nulls = [] if column["not_null"] else ["NULL"]
    return list(dict.fromkeys([*nulls, *found]))


DOMAIN_TYPES = {
    "integer": "int4", "bigint": "int8", "smallint": "int2", "boolean": "bool", "character varying": "varchar",
    "character": "bpchar", "double precision": "float8", "real": "float4", "timestamp without time zone": "timestamp",
    "timestamp with time zone": "timestamptz", "time without time zone": "time"}


def domain_type(column: Column) -> str:
    """Returns the type below a domain, under the server's internal name."""
    base = re.sub(r"\([^)]*\)", "", column["base"] or "").strip()
    return DOMAIN_TYPES.get(base, base)


def constant(column: Column, text: str | None) -> str:
    """Returns what the server prints for a value, as a constant."""
    if text is None:
        return "NULL"
    if column["type"] == "bool":
        return text.upper()
    kind = column["type"] if column["kind"] != "d" else domain_type(column)
    return text if column["type"] in NUMBERS and NUMBER.match(text) else readable(kind, text)


def numbers(kind: str, constants: Sequence[str], chance: random.Random) -> Iterator[str]:
    """Yields numbers that are named, their neighbours and opposites, the limits of the type, and others."""
    listed = [Decimal(it) for it in constants if NUMBER.match(it)]
    steps = [Decimal(1)] if kind in INTEGERS else [Decimal(1), Decimal("0.01"), Decimal("0.5")]
    exact = [value + step * sign for value in listed for step in steps for sign in (-1, 0, 1)]
    bits = INTEGERS[kind][0] if kind in INTEGERS else 31
    ends = [Decimal(-(1 << (bits - 1))), Decimal((1 << (bits - 1)) - 1)]
    small = [Decimal(it) for it in range(-9, 10)]
    others = [Decimal(chance.randrange(-(1 << size), 1 << size)) for size in range(5, bits - 1) for _ in (0, 1)]
    for value in [*exact, *(-it for it in listed), *ends, *(it + 1 for it in ends[:1]), *small, *others]:
        if kind not in INTEGERS or value == value.to_integral_value() and ends[0] <= value <= ends[1]:
            yield plain(value)


def plain(value: Decimal) -> str:
    """Returns a number in SQL."""
    try:
        return f"{value:f}"
    except InvalidOperation:
        return str(value)


def moments(kind: str, constants: Sequence[str]) -> Iterator[str]:
    """Yields days and times that are named, with their neighbours."""
    for text in constants:
        if DAY.match(text) if kind != "time" else CLOCK.match(text):
            for value in (f"{quoted(text)}::{kind}", f"{quoted(text)}::{kind} + {STEPS[kind]}",
                          f"{quoted(text)}::{kind} - {STEPS[kind]}"):
                yield value
            if kind != "time":
                yield from (f"{quoted(text)}::{kind} {sign} interval '1 {unit}'"
                            for sign in "+-" for unit in ("day", "month", "hour"))


def uuids(constants: Sequence[str], chance: random.Random) -> Iterator[str]:
    """Yields uuids that are named, with their neighbours, and others."""
    listed = [int(it.replace("-", ""), 16) for it in constants if UUID.match(it)]
    for value in [*(it + step for it in listed for step in (-1, 0, 1)), *(chance.getrandbits(128) for _ in range(16))]:
        if 0 <= value < 1 << 128:
            yield quoted(f"{value:032x}")


def words(constants: Sequence[str], chance: random.Random) -> Iterator[str]:
    """Yields texts that are named, longer and shorter ones, in other letter cases, and texts that patterns among them
    match."""
    for text in constants:
        bare = text.replace("%", "").replace("_", "x")
        for value in (text, text + "a", text + " ", "a" + text, text[:-1], text.upper(), text.lower(), bare,
                      bare + "zz", "zz" + bare, text + "!", text.replace("%", "q").replace("_", "q")):
            yield quoted(value.replace("\0", ""))
    for size in range(MANY):
        yield quoted("".join(chance.choice("abcxyzABC019 -_é") for _ in range(size % 12 + 1)))


def objects(constants: Sequence[str]) -> Iterator[str]:
    """Yields JSON objects with one of the constants as a key, and a constant or a plain value as its value."""
    named = constants[:8]
    for key in named:
        beside: list[object] = [None, 1, True, "", {}, *named]
        yield from (quoted(json.dumps({key: value}, ensure_ascii=False)) for value in beside)
        for other in named:
            yield quoted(json.dumps({key: {other: other}}, ensure_ascii=False))


def arrays(constants: Sequence[str]) -> Iterator[str]:
    """Yields arrays of one or two of the constants, also with NULL."""
    listed = ['"' + it.replace("\\", "\\\\").replace('"', '\\"') + '"' for it in [*constants[:6], "0", "a"]]
    for one in listed:
        yield from (quoted(f"{{{it}}}") for it in (one, f"{one},NULL", f"NULL,{one}", f"{one},{one}"))
        yield from (quoted(f"{{{one},{other}}}") for other in listed)


def spans(constants: Sequence[str]) -> Iterator[str]:
    """Yields ranges between the constants, and unbounded ones."""
    listed = ['"' + it + '"' for it in constants[:6] if '"' not in it]
    for low in listed:
        yield from (quoted(it) for it in (f"[{low},)", f"({low},)", f"(,{low})", f"(,{low}]", f"[{low},{low}]"))
        yield from (quoted(f"[{low},{high})") for high in listed)
