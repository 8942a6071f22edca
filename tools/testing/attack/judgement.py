"""Judge's answers about a database, from its JSON."""

import json
import os
import pathlib
import subprocess
from dataclasses import dataclass, field
from typing import Any

TOOLS = pathlib.Path(__file__).resolve().parent.parent.parent
# The seconds that judge may take for a table, and in all, so that a busy machine does not change its answers.
TABLE_SECONDS, SECONDS = 60, 900


@dataclass
class Verdict:
    """The answer for a table."""

    answer: str
    because: list[str] = field(default_factory=list)
    remarks: list[str] = field(default_factory=list)
    row: dict[str, str] | None = None
    takers: list[str] = field(default_factory=list)
    regions: list[tuple[str, str]] = field(default_factory=list)
    # All regions that go to nobody or to several, as conditions with the takers, if they are known completely.
    faults: list[tuple[str, list[str]]] | None = None
    # Rows for which a filter fails, in words.
    failing: list[str] = field(default_factory=list)

    def words(self) -> str:
        """Returns the whole verdict, for people."""
        parts = [self.answer]
        if self.row is not None:
            row = ", ".join(f"{name} = {value}" for name, value in self.row.items())
            parts.append(f"the row {row} goes to {' and '.join(self.takers) or 'nobody'}")
        parts += [*self.because, *self.remarks, *self.failing]
        parts += [f"{rows} -> {taker}" for rows, taker in self.regions]
        parts += [f"{rows} -> {' and '.join(takers) or 'nobody'}" for rows, takers in self.faults or ()]
        return "; ".join(parts)

    def says_that_it_fails(self) -> bool:
        """Returns whether rows for which a filter fails are reported."""
        words = ("fail", "stop", "ends its replication")
        return bool(self.failing) or any(word in it for it in (*self.because, *self.remarks) for word in words)


@dataclass
class Judgement:
    """The answers for all tables by name, or the reason why there are none."""

    verdicts: dict[str, Verdict] = field(default_factory=dict)
    fault: str | None = None


def judged(program: str, words: list[str], takers: dict[str, list[str]]) -> Judgement:
    """Runs judge with psql's arguments and who takes which publications."""
    listed = " ".join(f"{name}={','.join(names)}" for name, names in takers.items() if names)
    given = ["-v", f"subscriptions={listed}"] if listed else []
    environment = {name: value for name, value in os.environ.items() if not name.startswith("PG") or name == "PGSHARD"}
    try:
        answer = subprocess.run(
            [program, "--json", "--explain", "--seconds", str(TABLE_SECONDS), *words, *given], capture_output=True,
            encoding="utf-8", timeout=SECONDS,
            env=environment | {"PGCLIENTENCODING": "UTF8", "PYTHONUTF8": "1"})
    except subprocess.TimeoutExpired:
        return Judgement(fault=f"judge does not end within {SECONDS} seconds")
    try:
        found = json.loads(answer.stdout)
    except ValueError:
        said = f"{answer.stdout[-500:]} {answer.stderr[-1500:]}"
        return Judgement(fault=f"judge ends with status {answer.returncode}: {said}")
    return Judgement({it["table"]: verdict_of(it) for it in found["tables"]})


def verdict_of(found: dict[str, Any]) -> Verdict:
    """Returns the verdict of a table in the JSON."""
    return Verdict(
        found["answer"], [str(it) for it in found.get("because", [])], [str(it) for it in found.get("remarks", [])],
        found.get("row"), found.get("goes_to", []), [(it["rows"], it["subscriber"]) for it in found.get("regions", [])],
        [(it["rows"], it["goes_to"]) for it in found["faults"]] if found.get("more_faults") == 0 else None,
        [str(it) for it in found.get("failing", [])])
