"""Counts how many present rows of a table go to nobody or to several. The server itself evaluates the filters on its
rows."""

import json
from collections.abc import Iterable, Sequence
from dataclasses import dataclass, field
from typing import Any

from pgshard_tools.judging import values
from pgshard_tools.judging.database import Column, names_of
from pgshard_tools.judging.server_types import quoted
from pgshard_tools.judging.session import Session
from pgshard_tools.judging.shares import Shares

# Names that no column has.
TABLE, COUNT = '"the table"', '"how many take the row"'
CANCELLED = "57014"
TOLD = "\\echo\n\\echo :ERROR :LAST_ERROR_SQLSTATE :LAST_ERROR_MESSAGE\n"


@dataclass
class Key:
    """The key of a row, as constants by column name, and who gets the row."""

    values: dict[str, str]
    takers: list[str]


@dataclass
class Counts:
    """What the server counted, or why it did not. `each` is how many rows each subscriber gets, `where` is how many
    rows satisfy each condition, and `lacking` is how many rows each subscriber lacks if it should get all."""

    rows: int = 0
    nobody: int = 0
    several: int = 0
    each: dict[str, int] = field(default_factory=dict)
    lacking: int | None = None
    where: dict[str, int] = field(default_factory=dict)
    keys: list[Key] = field(default_factory=list)
    why_none: str | None = None


def counts_of(session: Session, shares: Shares, conditions: Sequence[str], purpose: str | None, rows: int,
              seconds: float) -> Counts:
    """Asks the server in one query, which only reads the table."""
    question = Question(shares, list(dict.fromkeys(conditions)), purpose, rows)
    timeout = f"SET LOCAL statement_timeout = '{max(1, int(seconds * 1000))}ms'"
    # Row security policies would hide rows from the count; with this setting, the server reports an error instead.
    answer = session.ask_for(1, f"{timeout}; SET LOCAL row_security = off; {question.text()};\n{TOLD}")
    found, _, told = answer.rpartition("\n")
    error, state, message = (*told.split(maxsplit=2), "", "")[:3]
    if error == "false" and found.strip():
        return question.counts(json.loads(found.strip()))
    if state == CANCELLED:
        return Counts(why_none=f"it takes over {seconds:g} seconds; raise --seconds")
    return Counts(why_none=f"{message.strip() or 'the server gives no answer'}; {advice(state)}")


def advice(state: str) -> str:
    """Returns what to do if the server does not count."""
    if state == "42501":
        return "try it as a role that may read all rows of the table"
    return "a filter that fails at a row stops the replication there" if state.startswith("22") else "try it again"


@dataclass
class Question:
    """The query about a table."""

    shares: Shares
    conditions: Sequence[str]
    purpose: str | None
    rows: int

    def text(self) -> str:
        """Returns the query, whose answer is one JSON object."""
        each = counted(self.takers().values())
        where = counted(map(condition_text, self.conditions))
        parts = {
            "rows": "count(*)", "nobody": f"count(*) FILTER (WHERE {COUNT} = 0)",
            "several": f"count(*) FILTER (WHERE {COUNT} > 1)",
            "lacking": f"count(*) FILTER (WHERE {COUNT} < {len(self.shares.takers)})",
            "each": each, "where": where}
        if self.rows:
            parts["keys"] = f"({self.keys_text()})"
        listed = ", ".join(f"'{name}', {text}" for name, text in parts.items())
        return f"SELECT json_build_object({listed}) FROM ({self.source()}) AS {TABLE}"

    def keys_text(self) -> str:
        """Returns a query for the keys of some rows that show a fault."""
        takers = ", ".join(self.takers().values())
        keys = ", ".join(f"{quoted(name)}, ({text})::text" for name, text in self.key().items())
        one = f"SELECT json_build_array(json_build_object({keys}), ARRAY[{takers}]::boolean[]) AS one"
        fault = {"partial": f"{COUNT} > 1", "copied": f"{COUNT} < {len(self.shares.takers)}"}.get(
            self.purpose or "", f"{COUNT} <> 1")
        listed = f"{one} FROM ({self.source()}) AS {TABLE} WHERE {fault} LIMIT {self.rows}"
        return f"SELECT json_agg(one) FROM ({listed}) AS keys"

    def source(self) -> str:
        """Returns a query for the table's rows, and how many subscribers take each."""
        table = self.shares.table
        only = "" if table["kind"] == "p" else "ONLY "
        count = " + ".join(f"({it})::integer" for it in self.takers().values()) or "0"
        return f"SELECT {TABLE}.*, tableoid, ctid, {count} AS {COUNT} FROM {only}{table['quoted']} AS {TABLE}"

    def takers(self) -> dict[str, str]:
        """Returns for each subscriber an expression for whether it takes a row. The server sends nothing of some
        partitions."""
        silent = ", ".join(str(it.table["oid"]) for it in self.shares.silent)
        sent = f"tableoid NOT IN ({silent}) AND " if silent else ""
        return {name: f"({sent}({self.any_filter(names)}))" for name, names in self.shares.takers.items()}

    def any_filter(self, names: Sequence[str]) -> str:
        texts = [self.shares.filters[it] for it in names]
        return "true" if None in texts else " OR ".join(f"({it}) IS TRUE" for it in texts) or "false"

    def key(self) -> dict[str, str]:
        """Returns the columns that identify a row, or otherwise its physical location."""
        table = self.shares.table
        numbers = table.get("key_numbers") or table["identity_numbers"]
        names = names_of(table, numbers) if numbers else []
        by_name = {it["name"]: str(it["quoted"]) for it in table["columns"]}
        return {it: by_name[it] for it in names} or {"tableoid": "tableoid::regclass", "ctid": "ctid"}

    def counts(self, answer: dict[str, Any]) -> Counts:
        """Returns the counts as they are reported."""
        names = list(self.shares.takers)
        columns = {it["name"]: it for it in self.shares.table["columns"]}
        keys = [Key({name: constant(columns.get(name), value) for name, value in key.items()},
                    [name for name, is_taken in zip(names, takers) if is_taken])
                for key, takers in answer.get("keys") or ()]
        lacking = answer["lacking"] if self.purpose == "copied" else None
        return Counts(answer["rows"], answer["nobody"], answer["several"], dict(zip(names, answer["each"])), lacking,
                      dict(zip(self.conditions, answer["where"])), keys)


def counted(conditions: Iterable[str]) -> str:
    """Returns an expression that counts how often each condition is TRUE. It is an array, since an array may have more
    elements than a call has arguments."""
    return f"ARRAY[{', '.join(f'count(*) FILTER (WHERE {it})' for it in conditions)}]::bigint[]"


def condition_text(condition: str) -> str:
    """Returns an expression for whether a condition is TRUE for a row."""
    return "true" if condition == "all rows" else f"({condition}) IS TRUE"


def constant(column: Column | None, value: str | None) -> str:
    """Returns a value as an SQL constant."""
    return quoted(value or "") if column is None else values.constant(column, value)
