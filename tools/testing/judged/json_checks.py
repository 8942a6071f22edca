"""Tests judge's JSON against docs/judge.schema.json, with a library for JSON Schema."""

import json
import pathlib
import subprocess
import tempfile
from typing import Any

from programs import PGSHARD, TOOLS, patience
from pythons import python_with
from server import Server, environment
from tally import Tally

SCHEMA = TOOLS.parent / "docs" / "judge.schema.json"
DATABASE = "json_answers"
SETUP = """
    CREATE TABLE divided (id integer PRIMARY KEY);
    CREATE TABLE gaps (id integer PRIMARY KEY);
    CREATE TABLE keyless (id integer);
    CREATE TABLE failing (id integer PRIMARY KEY);
    CREATE TABLE drafts (id integer);
    CREATE PUBLICATION low FOR TABLE divided WHERE (id < 5), gaps WHERE (id < 5), keyless, failing WHERE (10 / id > 1);
    CREATE PUBLICATION high FOR TABLE divided WHERE (id >= 5), gaps WHERE (id > 5), failing WHERE (10 / id <= 1);
    INSERT INTO gaps SELECT generate_series(1, 9);
    SELECT FROM pg_create_logical_replication_slot('json_slot', 'pgoutput');
"""
# Is run by a Python that has the library: for each text of a list, prints its faults according to the schema.
VALIDATE = """
import json, sys, jsonschema
schema, *files = sys.argv[1:]
with open(schema) as file:
    schema = json.load(file)
kind = jsonschema.Draft202012Validator
kind.check_schema(schema)
for name in files:
    with open(name) as file:
        print(json.dumps([it.message for it in kind(schema).iter_errors(json.load(file))]))
"""
TABLE: dict[str, Any] = {"table": "t", "answer": "sound"}
ANSWER: dict[str, Any] = {
    "database": "d", "status": 0, "subscribers": [], "subscribers_known": None, "tables": [TABLE], "unpublished": []}
ROW = {"answer": "not sound", "row": {"id": "1"}, "goes_to": [], "columns": []}
# Objects that judge never prints.
WRONG: list[Any] = [
    [], {}, {"status": 4}, {"error": "x", "status": 0}, ANSWER | {"status": 99}, ANSWER | {"tables": [{"table": "t"}]},
    ANSWER | {"error": "x"}, {"status": 0, "databases": [{key: it for key, it in ANSWER.items() if key != "database"}]},
    *(ANSWER | {"tables": [TABLE | it]} for it in (
        {"answer": "perhaps"}, {"answer": "refused"}, {"row": {"id": "1"}}, ROW | {"answer": "sound"},
        ROW | {"row": {"id": 1}}, ROW | {"goes_to": None}, {"because": []}, {"regions": [{"rows": "all rows"}]})),
    ANSWER | {"subscribers": [{"name": "a"}]}, ANSWER | {"changes": [{"table": "t", "before": "sound"}]},
    ANSWER | {"time": "now", "changed": []}]


def check_json(tally: Tally, server: Server) -> None:
    """Checks that answers of all kinds match the schema, and that other objects do not."""
    server.create(DATABASE, SETUP)
    words = server.words(DATABASE)
    with tempfile.TemporaryDirectory() as name:
        folder = pathlib.Path(name)
        texts = answers(folder, words)
        right = validated(folder, texts)
        wrong = validated(folder, [json.dumps(it) for it in [ANSWER, ANSWER | {"tables": [TABLE | ROW]}, *WRONG]])
    for text, faults in zip(texts, right):
        tally.check(f"JSON as the schema says: {' '.join(text.split())[:80]}", faults, [])
    tally.check("objects that are as the schema says", [not it for it in wrong], [True, True, *(False for _ in WRONG)])
    kinds = {it["answer"] for it in json.loads(texts[0])["tables"]}
    tally.check("kinds of answers that are missing", {"sound", "not sound", "refused"} - kinds, set())
    keys = "findings", "faults", "failing", "regions", "changes", "error", "counts", "count", "keys", "lacking", "repairs"
    tally.check("keys that only some answers have", [it for it in keys if not any(f'"{it}"' in text for text in texts)], [])


def answers(folder: pathlib.Path, words: list[str]) -> list[str]:
    """Returns what judge prints in several runs."""
    catalog, migration = folder / "catalog.sql", folder / "migration.sql"
    catalog.write_text("CREATE TABLE t (id integer PRIMARY KEY); CREATE PUBLICATION p FOR TABLE t; "
                       "CREATE SUBSCRIPTION s CONNECTION '' PUBLICATION p;")
    migration.write_text("DROP PUBLICATION high;")
    runs: list[list[str]] = [
        ["--explain", *words], ["--detailed-status", *words], ["--with", str(migration), *words], [str(catalog)],
        ["-v", "subscriptions=a=low b=low,high", *words], ["--copied", "none", *words], ["--none"], ["-h", str(folder)],
        ["-v", "subscriptions=a=gone", *words], ["--rows", "2", *words], ["--repair", "gaps", *words],
        ["--count", "--copied", "keyless", *words]]
    return [subprocess.run(
        [TOOLS / "judge", "--json", *patience(it), *it], stdout=subprocess.PIPE, stderr=subprocess.DEVNULL,
        encoding="utf-8", env=environment() | {"PGSHARD": PGSHARD}).stdout for it in runs]


def validated(folder: pathlib.Path, texts: list[str]) -> list[list[str]]:
    """Returns the faults of each text."""
    python = python_with("jsonschema")
    assert python is not None
    files = []
    for place, text in enumerate(texts):
        files.append(folder / f"{place}.json")
        files[-1].write_text(text)
    answer = subprocess.run([python, "-c", VALIDATE, SCHEMA, *files], capture_output=True, encoding="utf-8", check=True)
    return [json.loads(line) for line in answer.stdout.splitlines()]
