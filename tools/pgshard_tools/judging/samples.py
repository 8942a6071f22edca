"""The server's values of functions of a column for the constants with which the column is compared.

If the column equals such a constant, each function of only this column has that value. So `lower(code) = 'de'` is known
if `code = 'DE'`. This is done only for types in which equal values are identical in every respect.
"""

import json
from collections.abc import Sequence
from typing import Any, Protocol

from pgshard_tools.judging.database import Column
from pgshard_tools.judging.faults import Unread
from pgshard_tools.judging.formulas import Compare, Formula, IsNull, Subject, Within, either, leaves_of, negation
from pgshard_tools.judging.server_types import INTEGERS, ORDERED, collation_sql, literal, value_of

SAME = {*INTEGERS, "text", "varchar", "date", "timestamp", "timestamptz", "uuid", "time"}
# The most values that are asked for.
MOST = 40


class Asking(Protocol):
    def ask(self, query: str) -> str: ...


def samples_of(listed: Sequence[Formula], columns: Sequence[Column], session: Asking) -> dict[str, Formula]:
    """Returns a formula for each function and each constant, by a name."""
    leaves = [leaf for formula in listed for leaf in leaves_of(formula) if not isinstance(leaf, Within)]
    by_name = {it["name"]: it for it in columns}
    found: dict[str, Formula] = {}
    for subject in dict.fromkeys(it.subject for it in leaves if is_function(it.subject)):
        column = by_name[subject.columns[0]]
        points = dict.fromkeys(it for it in leaves if isinstance(it, Compare) and it.op == "=" and it.subject.is_column
                               and it.subject.columns == subject.columns and it.subject.type in SAME)
        for point in points if column["kind"] == "b" else ():
            if len(found) < MOST:
                held = sample(subject, column, point, session)
                found |= {} if held is None else {f"{subject.sql} where {column['name']} = {point.value}": held}
    return found


def is_function(subject: Subject) -> bool:
    """Returns whether it is an expression of one column whose type is read."""
    is_read = subject.type in ORDERED or subject.type == "bool"
    return not subject.is_column and len(subject.columns) == 1 and is_read


def sample(subject: Subject, column: Column, point: Any, session: Asking) -> Formula | None:
    """Returns the value of a function for a constant, or None if the server fails there."""
    collation = f" COLLATE {collation_sql(column['collation'])}" if column["collation"] not in (None, "default") else ""
    value = f"({literal(point.subject.type, point.value)})::{column['written']}{collation}"
    answer = session.ask(
        f"SELECT json_build_array(({subject.sql})::text) FROM (VALUES ({value})) AS t ({column['quoted']})")
    if not answer:
        return None
    text = json.loads(answer)[0]
    try:
        held: Formula = IsNull(subject) if text is None else Compare(subject, "=", value_of(subject.type, text))
    except Unread:
        return None
    return either(negation(point), held)
