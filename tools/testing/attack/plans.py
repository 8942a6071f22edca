"""Plans by which filters divide a table. Most divide all rows; a small change then makes a gap or an overlap."""

import random
import re
from collections.abc import Callable

from .conditions import OPERATORS, Column, Conditions, family

Plan = Callable[[Conditions, list[Column]], list[str]]
CHANGES, DISGUISES = 0.25, 0.25
# Other expressions for a column, used in one of several filters. Their meaning is the same, or nearly.
SAME = ("coalesce({c}, {c})", "CASE WHEN true THEN {c} END", "nullif({c}, NULL)", "greatest({c}, {c})",
    "coalesce({c}, {d})")
OTHERWISE = {
    "texts": (
        '{c} COLLATE "C"', '{c} COLLATE "default"', '{c} COLLATE "en-x-icu"', "{c}::text", "{c}::bpchar",
        "{c}::varchar",
        "({c} || '')", "({c}::text || '')", "CASE WHEN {d} IS NULL THEN {c} ELSE {c}::text END"),
    "numbers": (
        "{c}::bigint", "{c}::numeric", "{c}::float8", "({c} + 0)", "(-(-{c}))", "({c} * 1)", "abs({c})", "({c} / 1)",
        "{c}::float4", "({c} - 0.0)", "(+{c})"),
    "moments": ("{c}::timestamp", "{c}::date", "({c} + interval '0')", "{c}::timestamp(0)", "({c} + 0)"),
}
# The operator that is true where the given one is false.
TURNED = {"=": "<>", "<>": "=", "<": ">=", ">=": "<", "<=": ">", ">": "<="}


def halves(conditions: Conditions, columns: list[Column]) -> list[str]:
    """Returns filters for the rows for which a condition is true, and for the others."""
    one = conditions.formula(columns, 2)
    return [one, f"({one}) IS NOT TRUE"]


def with_gap(conditions: Conditions, columns: list[Column]) -> list[str]:
    """Returns a condition and its NOT: rows for which it is NULL are in neither."""
    one = conditions.formula(columns, 1)
    return [one, f"NOT ({one})"]


def thirds(conditions: Conditions, columns: list[Column]) -> list[str]:
    """Returns filters for true, false and unknown."""
    one = conditions.formula(columns, 1)
    return [one, f"NOT ({one})", f"({one}) IS NULL"]


def opposite(conditions: Conditions, columns: list[Column]) -> list[str]:
    """Returns a comparison and its opposite, as people write them, and a test for NULL."""
    column = conditions.chance.choice(columns)
    written = tuple(it for it in column.kind.conditions if "{op}" in it and conditions.takes(column.kind, it))
    if not written:
        return thirds(conditions, columns)
    template = conditions.template(column.kind, written)
    sign = conditions.chance.choice(OPERATORS)
    state = conditions.chance.getstate()
    filters = []
    for sign in sign, TURNED[sign]:
        conditions.chance.setstate(state)
        filters.append(conditions.filled(template.replace("{op}", sign), column, columns))
    if not column.is_not_null or conditions.chance.random() < 0.2:
        filters.append(f"{column.name} IS NULL")
    return filters


def quarters(conditions: Conditions, columns: list[Column]) -> list[str]:
    """Returns filters by two conditions."""
    one, other = conditions.formula(columns, 1), conditions.formula(columns, 1)
    return [
        f"({one}) AND ({other})", f"({one}) AND ({other}) IS NOT TRUE", f"({one}) IS NOT TRUE AND ({other})",
        f"({one}) IS NOT TRUE AND ({other}) IS NOT TRUE"]


def chosen(conditions: Conditions, columns: list[Column]) -> list[str]:
    """Returns filters by a CASE that yields the number of a subscriber."""
    one, other = conditions.formula(columns, 1), conditions.formula(columns, 1)
    number = f"CASE WHEN {one} THEN 0 WHEN {other} THEN 1 ELSE 2 END"
    return [f"{number} = {it}" for it in range(3)]


def buckets(conditions: Conditions, columns: list[Column]) -> list[str]:
    """Returns filters for the small values of a number that is computed from a row, and for the other values."""
    measure = conditions.measure(columns)
    if measure is None:
        return quarters(conditions, columns)
    chance, count = conditions.chance, conditions.chance.choice((2, 3, 4))
    kind = chance.random()
    if kind < 0.3:
        return [*(f"({measure}) = {it}" for it in range(count)), f"({measure}) NOT IN ({listed(count)})",
            f"({measure}) IS NULL"]
    if kind < 0.5:
        return [*(f"({measure}) = {it}" for it in range(count)), f"({measure}) < 0 OR ({measure}) >= {count}",
            f"({measure}) IS NULL"]
    if kind < 0.75:
        return [f"({measure}) < 1", f"({measure}) >= 1 AND ({measure}) <= {count}", f"({measure}) > {count}",
            f"({measure}) IS NULL"]
    return [*(f"({measure}) = {it}" for it in range(count)), f"(({measure}) IN ({listed(count)})) IS NOT TRUE"]


def listed(count: int) -> str:
    """Returns the numbers below a number."""
    return ", ".join(str(it) for it in range(count))


def ends(conditions: Conditions, columns: list[Column]) -> list[str]:
    """Returns ranges of a column between constants, in the order in which these are drawn."""
    column = conditions.chance.choice(columns)
    if not column.kind.is_ordered:
        return halves(conditions, columns)
    low, high, name = conditions.constant(column), conditions.constant(column), column.name
    filters = [f"{name} < {low}", f"{name} >= {low} AND ({name} < {high} OR {name} = {low})",
               f"{name} >= {high} AND {name} > {low}"]
    return filters if column.is_not_null else [*filters, f"{name} IS NULL"]


def lists(conditions: Conditions, columns: list[Column]) -> list[str]:
    """Returns lists of constants, and the others."""
    column = conditions.chance.choice(columns)
    if not column.kind.is_ordered:
        return halves(conditions, columns)
    one, other, third = (conditions.constant(column) for _ in range(3))
    name = column.name
    filters = [f"{name} IN ({one}, {other})", f"{name} = {third}", f"{name} NOT IN ({one}, {other}, {third})"]
    return filters if column.is_not_null else [*filters, f"{name} IS NULL"]


def random_filters(conditions: Conditions, columns: list[Column]) -> list[str]:
    """Returns random filters, without a plan."""
    return [conditions.formula(columns, 2) for _ in range(conditions.chance.choice((2, 3)))]


PLANS: dict[Plan, int] = {
    halves: 4, with_gap: 2, thirds: 4, opposite: 6, quarters: 2, chosen: 2, buckets: 5, ends: 4, lists: 3,
    random_filters: 1}


def filters_of(conditions: Conditions, columns: list[Column]) -> list[str]:
    """Returns the filters of a table; in three of ten cases, one is changed."""
    chance = conditions.chance
    plan = chance.choices(list(PLANS), list(PLANS.values()))[0]
    filters = plan(conditions, columns)
    if chance.random() < CHANGES:
        filters = changed(chance, filters)
    return disguised(chance, filters, columns) if chance.random() < DISGUISES else filters


def disguised(chance: random.Random, filters: list[str], columns: list[Column]) -> list[str]:
    """Returns the filters with one reference to a column written differently."""
    column, place = chance.choice(columns), chance.randrange(len(filters))
    places = [it.start() for it in re.finditer(re.escape(column.name), filters[place])]
    if not places:
        return filters
    others = [it.name for it in columns if it is not column] or [column.name]
    written = chance.choice(OTHERWISE.get(family(column.kind), SAME) if chance.random() < 0.7 else SAME)
    at, text = chance.choice(places), filters[place]
    text = f"{text[:at]}({written.format(c=column.name, d=chance.choice(others))}){text[at + len(column.name):]}"
    return [*filters[:place], text, *filters[place + 1:]]


def changed(chance: random.Random, filters: list[str]) -> list[str]:
    """Returns the filters with one operator or constant changed, without one IS NOT, or without one filter."""
    place = chance.randrange(len(filters))
    text, kind = filters[place], chance.random()
    signs = [it for it in re.finditer(r" (<=|>=|<>|=|<|>) ", text)]
    if kind < 0.5 and signs:
        at = chance.choice(signs)
        text = f"{text[:at.start(1)]}{chance.choice(OPERATORS)}{text[at.end(1):]}"
    elif kind < 0.6:
        text = text.replace("IS NOT TRUE", "IS FALSE", 1)
    elif kind < 0.7:
        text = text.replace(" AND ", " OR ", 1)
    elif len(filters) > 2:
        return filters[:place] + filters[place + 1:]
    return [*filters[:place], text, *filters[place + 1:]]
