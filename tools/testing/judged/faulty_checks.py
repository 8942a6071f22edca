"""Tests the regions of tables that are not sound, against where the server sends rows."""

import json
from collections.abc import Sequence
from typing import Any

from judged.databases_checks import filters_of, report_of
from judged.faulty import FAULTY, Faulty
from programs import judge
from server import Server
from tally import Tally

# The number of a table's regions whose row is inserted.
MOST_ROWS = 12


def check_faulty(tally: Tally, server: Server) -> None:
    """Tests all databases."""
    for case in FAULTY:
        server.create(database_of(case), case.setup)
        report, _ = report_of(server, database_of(case), case.words)
        for table in report["tables"]:
            check_table(tally, server, case, table, report["subscribers"])
        lines = judge(*server.words(database_of(case)), *case.words) if case.told else ""
        for part in case.told:
            tally.check(f"{case.name}: what is told", part if part in lines else lines, part)


def check_table(tally: Tally, server: Server, case: Faulty, table: dict[str, Any],
                subscribers: Sequence[dict[str, Any]]) -> None:
    """Checks the regions, a row in each, and that each of some other rows is in one region if it shows a fault."""
    name = table["table"].removeprefix("public.")
    faults = table.get("faults", [])
    found = [(it["rows"], it["goes_to"]) for it in faults]
    tally.check(f"{case.name}: the regions of {name}", sorted(found), sorted(case.regions[name]))
    takers = {
        it["name"]: filters_of(server, database_of(case), f"public.{name}", it["publications"]) for it in subscribers}
    for fault in faults[:MOST_ROWS]:
        tally.check(f"{case.name}: a row where {fault['rows']}", row_goes(server, case, name, fault, takers),
                    [True, sorted(fault["goes_to"])])
    server.psql(database_of(case), f"INSERT INTO {name} {case.rows[name]};")
    purpose = next((word.removeprefix("--") for word, its in zip(case.words, case.words[1:]) if its == name), "")
    wrong = [it for it in answers_of(server, case, name, faults, takers) if not is_right(it, faults, takers, purpose)]
    tally.check(f"{case.name}: rows of {name} in other regions than they are said to be", wrong, [])


def row_goes(server: Server, case: Faulty, table: str, fault: dict[str, Any], takers: dict[str, str]) -> list[Any]:
    """Returns whether a row is in its region, and who gets it."""
    row = fault["row"] or {}
    found = json.loads(server.psql(database_of(case), f"""
        BEGIN;
        INSERT INTO {table} ({', '.join(row)}) VALUES ({', '.join(row.values())});
        SELECT {answer_text([fault], takers)} FROM {table} AS t;
        ROLLBACK;
    """))
    return [found[0][0], sorted(found[1])]


def answers_of(server: Server, case: Faulty, table: str, faults: Sequence[dict[str, Any]],
               takers: dict[str, str]) -> list[list[Any]]:
    """Returns for each row the regions that contain it, who gets it, and the row."""
    lines = server.psql(database_of(case), f"SELECT {answer_text(faults, takers)} FROM {table} AS t;")
    return [json.loads(line) for line in lines.split("\n")]


def answer_text(faults: Sequence[dict[str, Any]], takers: dict[str, str]) -> str:
    """Returns an SQL expression for the query about each row."""
    regions = ", ".join(f"({it['rows'].replace('all rows', 'true')}) IS TRUE" for it in faults)
    names = ", ".join(f"CASE WHEN {text} THEN '{name}' END" for name, text in takers.items())
    return (f"json_build_array(ARRAY[{regions}]::boolean[], array_remove(ARRAY[{names}], NULL), to_json(t))")


def is_right(answer: list[Any], faults: Sequence[dict[str, Any]], takers: dict[str, str], purpose: str) -> bool:
    """Returns whether a row that shows a fault is in one region, of those who get it, and any other row in none."""
    regions, names = answer[:2]
    shown = [sorted(fault["goes_to"]) for fault, is_in in zip(faults, regions) if is_in]
    is_fault = {"partial": len(names) > 1, "copied": len(names) < len(takers)}.get(purpose, len(names) != 1)
    return shown == ([sorted(names)] if is_fault else [])


def database_of(case: Faulty) -> str:
    """Returns the database's name on the server."""
    return f"faulty_{case.name}"
