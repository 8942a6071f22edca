"""Tests each form that judge rewrites: its value by the server, and by pgshard for the rewritten filter and the encoded
row."""

import json
import os
import pathlib
import subprocess
from concurrent.futures import ThreadPoolExecutor

from judged.forms import GROUPS as REWRITTEN
from judged.forms_derived import DERIVED
from programs import pgshard
from pythons import python_with
from server import environment

FOLDER = pathlib.Path(__file__).resolve().parent
DATABASE = "rewritings"
GROUPS = [*REWRITTEN, *DERIVED]


def check_forms(tally, server):
    """Tests all groups of forms in one database."""
    server.create(DATABASE, setup())
    answer = subprocess.run(
        [python_with("pglast"), FOLDER / "encode.py", *server.words(DATABASE)],
        stdout=subprocess.PIPE, encoding="utf-8", env=environment())
    tally.check("the rewriting of all forms", answer.returncode, 0)
    count = 0
    catalogs = json.loads(answer.stdout) if answer.returncode == 0 else []
    with ThreadPoolExecutor(len(os.sched_getaffinity(0))) as threads:
        values = list(threads.map(lambda found: values_of(server, found), catalogs))
    for found, (lines, status, output) in zip(catalogs, values):
        count += len(found["filters"])
        check_catalog(tally, found, lines, status, output)
    tally.check("how many forms are rewritten", count, sum(len(group.filters) for group in GROUPS))


def setup():
    statements = []
    for number, group in enumerate(GROUPS):
        table = f"forms{number:02d}"
        statements.append(f"CREATE TABLE {table} ({group.columns}, row_number serial PRIMARY KEY);")
        statements.append(f"ALTER TABLE {table} REPLICA IDENTITY FULL;")
        if group.rows:
            statements.append(f"INSERT INTO {table} VALUES {', '.join(group.rows)};")
        if group.filling:
            statements.append(f"INSERT INTO {table} {group.filling};")
        for place, filter in enumerate(group.filters):
            statements.append(f"CREATE PUBLICATION p{number:02d}_{place:02d} FOR TABLE {table} WHERE ({filter});")
    return "\n".join(statements)


def values_of(server, found):
    """Returns the server's values of the filters of one catalog for its rows, and the status and the output of
    pgshard."""
    values = ", ".join(f"coalesce(({it})::text, 'null')" for it in found["filters"].values())
    lines = server.psql(DATABASE, f"SELECT concat_ws(' ', {values}) FROM {found['table']} ORDER BY row_number;")
    return lines, *pgshard("eval", found["table"], text="\n".join([found["catalog"] + "%%", *found["rows"], ""]))


def check_catalog(tally, found, lines, status, output):
    """Checks the filters of one catalog."""
    names = list(found["filters"])
    by_server = [line.split() for line in lines.split("\n")]
    tally.check(f"pgshard reads the filters of {found['table']}", output[:300] if status else "", "")
    if status:
        return
    by_name = [dict(word.split("=") for word in line.split()) for line in output.splitlines()]
    for name in found["facts"]:
        wrong = [row for row, values in zip(found["rows"], by_name) if values.get(name) == "false"][:3]
        tally.check(f"rows of {found['table']} of which a fact does not hold: {found['facts'][name]}", wrong, [])
    for place, name in enumerate(names):
        ours = [values.get(name) for values in by_name]
        theirs = [values[place] for values in by_server]
        if name in found["has_null"]:
            # A catalog cannot contain a constant NULL: such a filter is rewritten to one that is true for the same
            # rows.
            ours, theirs = ([it == "true" for it in listed] for listed in (ours, theirs))
        unlike = [row for row, one, other in zip(found["rows"], ours, theirs) if one != other][:3]
        what = f"rows of which {found['filters'][name]} has another value by pgshard"
        tally.check(what, unlike or len(ours), len(theirs))
