"""Tests each row of judge's table of functions and operators on a server: with extreme values of its types, with nulls,
and with empty and infinite values, it is NULL only where the table says so, fails only where the table says so, and
depends on no setting."""

import itertools
import json
import os
import random
import subprocess
import sys
from concurrent.futures import ThreadPoolExecutor
from typing import Callable, Iterator

from judged.edges import ARRAYS, EDGES, LIMITED, OF_ELEMENTS, RANGES
from programs import TOOLS
from server import Server
from tally import Tally

sys.path.insert(0, str(TOOLS))

from pgshard_tools.judging.signatures import FUNCTIONS, NAMES, NEGATIONS, OPERATORS, PARTS, Row

# The most calls of a function; if there are more, a random sample is used.
MOST_CALLS = 300
# Evaluates an expression, and returns whether the server fails, or it is NULL, or otherwise '='.
TRIED = """
    CREATE FUNCTION tried(expression text) RETURNS text LANGUAGE plpgsql AS $body$
    DECLARE is_null boolean;
    BEGIN
        EXECUTE format('SELECT (%s) IS NULL', expression) INTO is_null;
        RETURN CASE WHEN is_null THEN 'NULL' ELSE '=' END;
    EXCEPTION WHEN OTHERS THEN
        RETURN 'fails';
    END $body$
"""
# Settings under which the server reads and prints values differently from its defaults.
SETTINGS = """
    SET extra_float_digits = -10; SET intervalstyle = 'iso_8601'; SET datestyle = 'German'; SET bytea_output = 'escape';
    SET timezone = 'Asia/Tokyo'; SET default_text_search_config = 'german'; SET quote_all_identifiers = on;
    SET xmlbinary = 'hex'; SET search_path = ''; SET lc_messages = 'C';
    SET backslash_quote = off; SET escape_string_warning = off;
"""
# Functions with a VARIADIC argument.
LISTED = {"jsonb_extract_path", "jsonb_extract_path_text", "json_extract_path", "json_extract_path_text"}
TextOf = Callable[[str, list[str]], str]


def check_signatures(tally: Tally, server: Server) -> None:
    """Tests all rows of both tables."""
    server.create("signatures", f"ALTER DATABASE signatures SET client_min_messages = error; {TRIED}")
    rows = [(signature, row, function_text) for signature, row in FUNCTIONS.items()]
    rows += [(signature, row, operator_text) for signature, row in OPERATORS.items()]
    with ThreadPoolExecutor(len(os.sched_getaffinity(0))) as threads:
        answers = list(threads.map(lambda it: faults_of(server, *it), rows))
    for (signature, _, _), faults in zip(rows, answers):
        tally.check(f"{signature}: calls that are otherwise than the table says", "\n".join(faults[:3]), "")
    check_descriptions(tally, server)
    for name, positive in NEGATIONS.items():
        for signature in (it for it in OPERATORS if it.startswith(f"{positive}(") and "," in it):
            tally.check(f"{name} is NOT {signature}", "\n".join(unlike_negations(server, signature, name)[:3]), "")


def check_descriptions(tally: Tally, server: Server) -> None:
    """Compares the descriptions with what the server says of each function."""
    described = json.loads(server.psql("postgres", f"""
        SELECT json_agg(json_build_array(signature, p.proisstrict, p.provolatile)) FROM (
            SELECT oid AS code, format('%s(%s)', proname, array_to_string(ARRAY(
                SELECT t.typname FROM unnest(proargtypes) WITH ORDINALITY AS a (type, place)
                JOIN pg_type t ON t.oid = a.type ORDER BY place), ',')) AS signature FROM pg_proc
            WHERE pronamespace = 'pg_catalog'::regnamespace
            UNION ALL
            SELECT oprcode, format('%s(%s)', oprname, concat_ws(',', l.typname, r.typname)) FROM pg_operator
            LEFT JOIN pg_type l ON l.oid = oprleft JOIN pg_type r ON r.oid = oprright
        ) AS s JOIN pg_proc p ON p.oid = code"""))
    known = {signature: (strict, volatility) for signature, strict, volatility in described}
    for signature, row in [*FUNCTIONS.items(), *OPERATORS.items()]:
        tally.check(f"{signature} is immutable, and strict unless the table says otherwise", known.get(signature),
                    (not row.null_at, "i"))


def function_text(name: str, words: list[str]) -> str:
    if name in LISTED:
        words = [*words[:-1], f"VARIADIC {words[-1]}"]
    return f"pg_catalog.{name}({', '.join(words)})"


def operator_text(name: str, words: list[str]) -> str:
    symbol = f"OPERATOR(pg_catalog.{name})"
    return f"{symbol} {words[0]}" if len(words) == 1 else f"{words[0]} {symbol} {words[1]}"


def faults_of(server: Server, signature: str, row: Row, text_of: TextOf) -> list[str]:
    """Returns the calls that fail or are NULL contrary to the row, or whose value depends on settings."""
    faults, kept = [], []
    for columns in value_sets(types_of(signature), dict(row.limits)):
        found, settled = faults_at(server, row, list(calls_of(signature, row, text_of, columns)))
        faults += found + (unsettled(server, settled) if settled else [])
        kept += settled
    return faults if kept else [*faults, f"{signature}: no call has a value"]


def faults_at(server: Server, row: Row, calls: list[tuple[str, bool]]) -> tuple[list[str], list[str]]:
    """Returns the faults of some calls, and the calls that have a value."""
    listed = ", ".join(f"({place}, {literal(call)})" for place, (call, _) in enumerate(calls))
    answer = server.psql("signatures", f"SELECT tried(call) FROM (VALUES {listed}) AS c (place, call) ORDER BY place;")
    faults, kept = [], []
    for (call, has_null), found in zip(calls, answer.split("\n")):
        is_foreseen = {"fails": row.fails, "NULL": has_null or not row.is_total, "=": not has_null}[found]
        faults += [] if is_foreseen else [f"{found}: {call[:200]}"]
        kept += [call] if found == "=" else []
    return faults, kept


def unsettled(server: Server, calls: list[str]) -> list[str]:
    """Returns the calls whose value depends on settings. Values are compared as texts under the same settings."""
    listed = ", ".join(f"({place}, {call})" for place, call in enumerate(calls))
    try:
        places = server.psql("signatures", f"""
            CREATE TEMP TABLE before AS SELECT * FROM (VALUES {listed}) AS c (place, value);
            {SETTINGS}
            SELECT place FROM pg_temp.before AS b JOIN (VALUES {listed}) AS c (place, value) USING (place)
            WHERE b.value::text IS DISTINCT FROM c.value::text;""")
    except subprocess.CalledProcessError:
        return ["it fails under other settings"]
    return [f"by settings: {calls[int(it)]}" for it in places.split()]


def unlike_negations(server: Server, signature: str, name: str) -> list[str]:
    """Returns calls for which an operator is not NOT of its negator."""
    row = OPERATORS[signature]
    found = []
    for columns in value_sets(types_of(signature), dict(row.limits)):
        tables = ", ".join(f"(VALUES {', '.join(f'({it})' for it in listed)}) AS t{place} (x{place})"
                           for place, listed in enumerate(columns))
        positive, negative = (operator_text(it, ["x0", "x1"]) for it in (signature.partition("(")[0], name))
        found.append(failing_calls(server, f"""
            SELECT concat_ws(', ', left(x0::text, 50), left(x1::text, 50)) FROM {tables}
            WHERE ({positive}) IS NOT DISTINCT FROM ({negative}) AND x0 IS NOT NULL AND x1 IS NOT NULL"""))
    return [it for it in found if it]


def failing_calls(server: Server, query: str) -> str:
    try:
        return server.psql("signatures", f"{query} LIMIT 3;")
    except subprocess.CalledProcessError:
        return "the server fails"


def literal(text: str) -> str:
    return "$call$" + text + "$call$"


def types_of(signature: str) -> list[str]:
    return signature.rpartition("(")[2].rstrip(")").split(",")


def calls_of(signature: str, row: Row, text_of: TextOf, columns: list[list[str]]) -> Iterator[tuple[str, bool]]:
    """Yields calls, and whether an argument is NULL. For a function that is not strict, some arguments are never
    NULL."""
    name, _, _ = signature.partition("(")
    combined = list(itertools.product(*columns))
    if len(combined) > MOST_CALLS:
        combined = random.Random(signature).sample(combined, MOST_CALLS)
    for words in combined:
        nulls = {place for place, it in enumerate(words) if it.startswith(("NULL", "(NULL)"))}
        if not row.null_at or nulls <= set(row.null_at):
            yield text_of(name, list(words)), bool(nulls)


def value_sets(types: list[str], limits: dict[int, str]) -> Iterator[list[list[str]]]:
    """Yields values of each argument; all of them are combined with all values of the others."""
    if "anyelement" in types:
        multi = "anymultirange" in types
        for its, element in OF_ELEMENTS.items():
            own = ranges_of(its) if not multi else [many_of(it) for it in ranges_of(its)]
            columns = [cast(own, its.replace("range", "multirange") if multi else its), cast([*EDGES[element], "NULL"], element)]
            yield columns if types[0].startswith("any") and types[0] != "anyelement" else columns[::-1]
    elif any(it in ("anyrange", "anymultirange") for it in types):
        for its in dict.fromkeys(it.rpartition("::")[2] for it in RANGES):
            plain = ranges_of(its)
            own = {"anyrange": cast(plain, its),
                   "anymultirange": cast([many_of(it) for it in plain], its.replace("range", "multirange"))}
            yield [own.get(it) or cast([*EDGES[it], "NULL"], it) for it in types]
    elif types[0] == "anycompatiblearray":
        yield [[it for it in ARRAYS if it.endswith("::int4[]")], cast([*EDGES["int4"], "NULL"], "int4")]
    elif types[0] == "anyarray":
        for its in dict.fromkeys(it.rpartition("::")[2] for it in ARRAYS):
            own_arrays = [it for it in ARRAYS if it.endswith(f"::{its}")]
            yield [own_arrays if it == "anyarray" else cast([*EDGES[it], "NULL"], it) for it in types]
    else:
        yield [cast(values_of(type, limits.get(place), types), type) for place, type in enumerate(types)]


def ranges_of(type: str) -> list[str]:
    return [it.rpartition("::")[0] for it in RANGES if it.endswith(f"::{type}")]


def many_of(range: str) -> str:
    """Returns the text of a multirange with one range."""
    return range if range == "NULL" else "'{}'" if range == "'empty'" else "'{" + range[1:-1] + "}'"


def cast(values: list[str], type: str) -> list[str]:
    """Casts values to a type; computed values are cast to text first."""
    name = '"char"' if type == "char" else type
    return [f"({it})::text::{name}" if "(" in it and not it.startswith("'") else f"({it})::{name}" for it in values]


def values_of(type: str, limit: str | None, types: list[str]) -> list[str]:
    if limit in ("part", "part_or_null"):
        return [f"'{it}'" for it in sorted(PARTS[types[1]])]
    if limit in NAMES:
        return [f"'{it}'" for it in sorted(NAMES[limit])]
    return [*LIMITED.get(limit or "", EDGES[type]), "NULL"]
