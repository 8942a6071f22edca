"""Server catalogs for tests, in the form that reading.sql prints."""

from typing import Any

from pgshard_tools.judging import meanings
from pgshard_tools.judging.database import Database

ALL = ["insert", "update", "delete", "truncate"]


def column(number: int, name: str, **others: Any) -> dict[str, Any]:
    """Returns a column, by default of type integer."""
    return {
        "number": number, "name": name, "quoted": name, "not_null": False, "type": "int4", "modifier": -1,
        "written": "integer", "kind": "b", "base": None, "label": None, "labels": None, "generated": False,
        "is_virtual": False,
        "identity": False, "generation": None, "is_own": True, "collation": None, "is_deterministic": True} | others


def table(oid: int, name: str, **others: Any) -> dict[str, Any]:
    """Returns a table with the columns id, its key, and region."""
    return {
        "oid": oid, "schema": "public", "name": name, "quoted": f"public.{name}", "kind": "r", "is_unlogged": False,
        "is_publishable": True, "is_locked": False, "has_row_security": False, "ancestors": [], "identity": "d",
        "columns": [column(1, "id", not_null=True), column(2, "region")], "has_dropped": False,
        "identity_numbers": [1], "partition": None, "checks": [], "references": [], "triggers": [], "rules": []
    } | others


def entry(oid: int, filter: str | None = None, numbers: list[int] | None = None) -> dict[str, Any]:
    """Returns a table of a publication."""
    return {"oid": oid, "filter": filter, "numbers": numbers}


def publication(name: str, *entries: dict[str, Any], **others: Any) -> dict[str, Any]:
    """Returns a publication of some tables, with all operations."""
    return {
        "name": name, "quoted": name, "all": False, "via_root": False, "operations": ALL, "entries": list(entries),
        "schemas": [], "generated": None} | others


def database(tables: list[dict[str, Any]], publications: list[dict[str, Any]], **others: Any) -> Database:
    """Returns a database of version 15.18."""
    return Database({
        "version": 150018, "database": "shop", "tables": tables, "unpublished": [], "publications": publications,
        "slots": [], "walsenders": []} | others)


class Nothing(dict):
    """An answer of the server that has no rows for any other query."""

    def __missing__(self, key: str) -> list[Any]:
        return []


class Meanings(meanings.Meanings):
    """What a server reports about comparisons of integers, with its OIDs, and about nothing else."""

    def __init__(self) -> None:
        super().__init__(None, database([], []))

    def asked(self, query: str) -> Any:
        if query == meanings.TREES:
            return Nothing()
        return Nothing(operators=[
            {"oid": oid, "name": name, "is_own": True, "arguments": ["int4", "int4"], "result": "bool",
             "is_strict": True, "volatility": "i"}
            for oid, name in {96: "=", 97: "<", 518: "<>", 521: ">", 523: "<=", 525: ">="}.items()])
