"""The catalog of one table, which is passed to pgshard."""

from collections.abc import Sequence
from typing import Any

from pgshard_tools.judging import printing
from pgshard_tools.judging.database import Table
from pgshard_tools.judging.formulas import Const, both, either, negation, tested
from pgshard_tools.judging.printing import name_text
from pgshard_tools.judging.rewriting import free_name
from pgshard_tools.judging.shares import Shares, Takers

# Rows that the server refuses have a subscriber of their own, so that the others need not get them. So have rows that
# nobody gets on purpose.
REFUSED_ROWS = "no row, since the server refuses it"
NOBODY = "nobody, on purpose"
KEY = "the row's number"


def subscriber_names(takers: Takers, purpose: str | None) -> list[str]:
    """Returns all subscriber names that an answer may contain, in the order of the catalog."""
    return [*takers, REFUSED_ROWS, NOBODY]


def catalog_of(shares: Shares, takers: Takers, purpose: str | None, trial: Any) -> str:
    """Returns a catalog with the table, those of its publications that are taken, and who takes them.

    The table's key is a column that no filter names, since a key does not decide where a row goes. Judge itself
    compares the columns of the replica identity with the filters, so the identity here has all columns.
    """
    table = table_name(shares.table)
    taken = list(dict.fromkeys(name for names in takers.values() for name in names))
    lines = []
    if shares.table["schema"] != "public":
        lines.append(f"CREATE SCHEMA {name_text(shares.table['schema'])};")
    lines.append(table_text(table, trial.rewritten.codings))
    lines.append(f"ALTER TABLE {table} REPLICA IDENTITY FULL;")
    held = both(*trial.constraints) if trial.constraints else None
    for name in taken:
        formula = filter_text(trial.filters[name], held)
        lines.append(publication_text(table, name, formula, shares.operations[name]))
    extras = extra_publications(trial, taken, held, purpose)
    for name, formula in extras.items():
        lines.append(publication_text(table, name, formula, None))
    for name, names in [*takers.items(), *((it, [it]) for it in extras)]:
        if names:
            listed = ", ".join(name_text(it) for it in names)
            lines.append(f"CREATE SUBSCRIPTION {name_text(name)} CONNECTION '' PUBLICATION {listed};")
    return "\n".join(lines) + "\n"


def table_name(table: Table) -> str:
    """Returns the name of a table as written."""
    return f"{name_text(table['schema'])}.{name_text(table['name'])}"


def table_text(table: str, listed: Sequence[Any]) -> str:
    """Returns CREATE TABLE with a column for each coding."""
    key = name_text(free_name(KEY, {coded.name for coded in listed}))
    columns = [f"{key} bigint"]
    for coded in listed:
        column = f"{name_text(coded.name)} {coded.printed_type}{' NOT NULL' if coded.not_null else ''}"
        columns.append(column + origin_text(coded))
    columns.append(f"PRIMARY KEY ({key})")
    inner = ",\n    ".join(columns)
    return f"CREATE TABLE {table} (\n    {inner}\n);"


def origin_text(coded: Any) -> str:
    """A comment that says what a printed column is computed from, if it is not a column of the table."""
    if coded.is_tight and coded.subject.is_column:
        return ""
    origin = f"{coded.subject.sql} of type {coded.subject.type}".translate(str.maketrans("", "", "*/"))
    return f" /* {' '.join(origin.split())} */"


def filter_text(formula: Any, held: Any) -> Any:
    """Returns a filter restricted to rows that satisfy the constraints, or None if there is no filter."""
    if held is None:
        return formula
    is_held = negation(tested("FALSE", held))
    return is_held if formula is None else both(tested("TRUE", formula), is_held)


def extra_publications(trial: Any, taken: Sequence[str], held: Any, purpose: str | None) -> dict[str, Any]:
    """Returns additional publications, which the server does not have, with their filters."""
    extras: dict[str, Any] = {}
    if held is not None:
        extras[REFUSED_ROWS] = tested("FALSE", held)
    if purpose == "partial":
        filters = [trial.filters[name] for name in taken]
        is_taken = Const(True) if None in filters else either(*(tested("TRUE", it) for it in filters))
        extras[NOBODY] = filter_text(negation(is_taken), held)
    return extras


def publication_text(table: str, name: str, formula: Any, operations: Sequence[str] | None) -> str:
    """Returns CREATE PUBLICATION."""
    where = "" if formula is None else f" WHERE ({printing.text_of(formula)})"
    is_whole = operations is None or set(operations) == {"insert", "update", "delete", "truncate"}
    options = "" if is_whole else f" WITH (publish = '{', '.join(operations or ())}')"
    return f"CREATE PUBLICATION {name_text(name)} FOR TABLE {table}{where}{options};"
