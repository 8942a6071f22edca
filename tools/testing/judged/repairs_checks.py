"""Tests repairs: what is printed, and that the repaired table is sound and each of its rows goes to one subscriber."""

import json
import os
import tempfile
from collections.abc import Callable, Iterable
from concurrent.futures import ThreadPoolExecutor
from dataclasses import dataclass, field
from typing import Any, TypeVar

from judged.databases_checks import filters_of, report_of
from judged.faulty import FAULTY
from judged.repaired import REPAIRED, Repaired
from programs import judge
from server import Server
from tally import Tally

Given, Found = TypeVar("Given"), TypeVar("Found")

# A partitioned table that is not published as one.
PARTS = """
    CREATE TABLE log (id bigint PRIMARY KEY) PARTITION BY RANGE (id);
    CREATE TABLE log_low PARTITION OF log FOR VALUES FROM (0) TO (100);
    CREATE TABLE log_high PARTITION OF log FOR VALUES FROM (100) TO (200);
    CREATE PUBLICATION p FOR TABLE log;
"""


@dataclass
class Job:
    """A database with tables that are repaired together: the rows of each, judge's arguments, and the subscribers, if
    not each publication is a subscriber of its own."""

    name: str
    setup: str
    rows: dict[str, str]
    words: list[str]
    takers: dict[str, list[str]] = field(default_factory=dict)

    @property
    def database(self) -> str:
        return f"mend_{self.name}"


def check_repairs(tally: Tally, server: Server) -> None:
    """Tests all databases of repairs, and also those of the regions."""
    cases = {it.name: it for it in REPAIRED}
    jobs = [Job(it.name, it.setup, {"t": it.rows}, it.words, it.takers) for it in REPAIRED]
    # A table that is to be copied is not repaired.
    jobs += [Job(it.name, it.setup, {name: rows for name, rows in it.rows.items() if name != "rates"}, it.words)
             for it in FAULTY]
    for job in jobs:
        server.create(job.database, job.setup)
    outputs = side_by_side(jobs, lambda job: judge(*server.words(job.database), *repair_words(job), *job.words))
    mended = [job for job, output in zip(jobs, outputs)
              if check_repair(tally, server, job, output, cases.get(job.name))]
    reports = side_by_side(mended, lambda job: report_of(server, job.database, plain_words(job)))
    for job, (report, _) in zip(mended, reports):
        check_mended(tally, server, job, report)
    check_role(tally, server)
    check_words(tally, server)


def side_by_side(listed: Iterable[Given], run: Callable[[Given], Found]) -> list[Found]:
    """Runs a function concurrently on all values, since it waits for other programs, and returns the results."""
    with ThreadPoolExecutor(len(os.sched_getaffinity(0))) as threads:
        return list(threads.map(run, listed))


def repair_words(job: Job) -> list[str]:
    return [word for table in job.rows for word in ("--repair", table)]


def plain_words(job: Job) -> list[str]:
    """Returns the arguments without those that only a repair uses."""
    return job.words[:job.words.index("--keep")] if "--keep" in job.words else job.words


def check_repair(tally: Tally, server: Server, job: Job, output: str, case: Repaired | None) -> bool:
    """Checks the statements, or the reason why there are none, and runs the statements. Returns whether there are
    some."""
    text, status = output.rsplit("status ", 1)
    if case is not None and case.why:
        tally.check(f"{job.name}: why there is no repair", (text, status), (
            f"-- public.t: no repair, since {case.why}\n", "1\n"))
        return False
    if case is not None:
        statements = [it for it in text.splitlines() if not it.startswith("-- ") or "nothing to repair" in it]
        tally.check(f"{job.name}: the repair", (statements, status), (case.statements, "0\n"))
    tally.check(f"{job.name}: the status of its repair", status if status == "0\n" else output, "0\n")
    server.psql(job.database, text)
    return True


def check_mended(tally: Tally, server: Server, job: Job, report: dict[str, Any]) -> None:
    """Checks that the tables are now sound, and that each row passes the filters of one subscriber, except rows that
    are left out on purpose."""
    answers = {it["table"]: it["answer"] for it in report["tables"]}
    names = server.psql(job.database, "SELECT pubname FROM pg_publication;").split("\n")
    listed = job.takers or {name: [name] for name in names}
    for table, rows in job.rows.items():
        tally.check(f"{job.name}: {table} with its repair", answers[f"public.{table}"], "sound")
        if rows:
            server.psql(job.database, f"INSERT INTO {table} {rows};")
        counted = " + ".join(
            f"({filters_of(server, job.database, f'public.{table}', its)})::integer" for its in listed.values())
        wanted = "BETWEEN 0 AND 1" if "--partial" in job.words and table in job.words else "= 1"
        tally.check(f"{job.name}: rows of {table} that do not go to one", server.psql(
            job.database, f"SELECT count(*) FROM {table} WHERE NOT ({counted}) {wanted};"), "0")


def check_role(tally: Tally, server: Server) -> None:
    """Tests a role that may not alter the publications."""
    server.psql("postgres", "CREATE ROLE mender LOGIN;")
    found = judge(*server.words("mend_identity"), "-U", "mender", "--repair", "t")
    tally.check("a repair by a role without privileges", found, (
        "-- public.t: no repair, since the server does not take it: CREATE PUBLICATION t_rest FOR TABLE public.t WHERE "
        "(region >= 5 OR region IS NULL): permission denied for database mend_identity; try it as the publications' "
        "owner\nstatus 1\n"))


def check_words(tally: Tally, server: Server) -> None:
    """Tests the command line, and JSON."""
    words = server.words("mend_identity")
    with tempfile.TemporaryDirectory() as folder:
        for given, fault in {
            ("--repair", "none"): "--repair none: no table public.none is published",
            ("--repair", "other.t"): "--repair other.t: no table other.t is published; public.t is",
            ("--repair", "t", "--keep", "x"): "--keep x: no such subscriber; there are p",
            ("--keep", "p"): "--keep needs --repair",
            ("--repair", "t", "--prometheus", f"{folder}/metrics"):
                "--repair prints statements, and cannot be combined with --nagios and --prometheus",
        }.items():
            tally.check(f"{' '.join(given[:3])}", judge(*words, *given), f"judge: {fault}\nstatus 2\n")
    server.create("mend_parts", PARTS)
    tally.check("a table whose partitions are judged", judge(*server.words("mend_parts"), "--repair", "log"), (
        "judge: --repair log: its partitions are judged one by one: public.log_high, public.log_low\nstatus 2\n"))
    given = "--repair", "t", "--keep", "q", "--json"
    output, status = judge(*server.words("mend_two_of_all"), *given).rsplit("status ", 1)
    found = json.loads(output)
    tally.check("a repair as JSON", (found["status"], status, found["repairs"][0]["statements"]), (1, "1\n", []))
