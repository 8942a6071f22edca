"""Tests judge's output for monitoring. The formats are those of the documentation of Nagios plugins and of
Prometheus."""

import pathlib
import re
import tempfile

from programs import judge
from server import Server
from tally import Tally

# Each database, with the statuses under --detailed-status, of judge and of a plugin, and the plugin's line.
BEGIN = "CREATE TABLE t (id integer PRIMARY KEY, a integer); ALTER TABLE t REPLICA IDENTITY FULL;"
DATA = "tables={} sound={} not_sound={} refused={} not_decided={} not_read={} failing=0 not_published={} findings=0"
CASES = [
    ("monitored_sound", f"{BEGIN} CREATE PUBLICATION p FOR TABLE t;", (0, 0, 0),
     "OK - monitored_sound: 1 table, 1 sound", (1, 1, 0, 0, 0, 0, 0)),
    ("monitored_rows", f"{BEGIN} CREATE PUBLICATION p FOR TABLE t WHERE (a > 0); CREATE TABLE u ();", (1, 1, 2),
     "CRITICAL - monitored_rows: 1 table, 0 sound; NOT SOUND: public.t", (1, 0, 1, 0, 0, 0, 1)),
    ("monitored_refused", f"{BEGIN} CREATE PUBLICATION p FOR TABLE t WITH (publish = 'insert, update, delete'); "
     "CREATE TABLE u (id integer PRIMARY KEY); CREATE PUBLICATION q FOR TABLE u;", (7, 1, 2),
     "CRITICAL - monitored_refused: 2 tables, 1 sound; REFUSED: public.t", (2, 1, 0, 1, 0, 0, 0)),
    ("monitored_nothing", BEGIN, (9, 1, 1), "WARNING - monitored_nothing: no table is published",
     (0, 0, 0, 0, 0, 0, 1)),
]

# The text format of Prometheus: a line of help, one with the type, and samples with labels.
LABELS = r'\{[a-z_]+="(?:[^"\\\n]|\\[\\"n])*"(?:,[a-z_]+="(?:[^"\\\n]|\\[\\"n])*")*\}'
METRIC = re.compile(rf"# HELP (\w+) [^\n]+\n# TYPE \1 gauge\n(?:\1(?:{LABELS})? \d+\n)+")
# A plugin's line: text, and labels with numbers.
PLUGIN = re.compile(r"PGSHARD (?:OK|WARNING|CRITICAL|UNKNOWN) - [^|\n]+ \|(?: \w+=\d+)+\n")


def check_monitoring(tally: Tally, server: Server) -> None:
    """Tests all of these."""
    for name, setup, (detailed, status, plugin), line, numbers in CASES:
        server.create(name, setup)
        found = judge(*server.words(name), "--detailed-status")
        tally.check(f"--detailed-status of {name}", found.split("\n")[-2], f"status {detailed}")
        tally.check(f"the same lines of {name}", judge(*server.words(name)), found.replace(
            f"status {detailed}", f"status {status}"))
        found, _, ended = judge(*server.words(name), "--nagios").rpartition("status ")
        tally.check(f"--nagios of {name}", (found, ended), (
            f"PGSHARD {line} | {DATA.format(*numbers)}\n", f"{plugin}\n"))
        tally.check(f"the form of --nagios of {name}", PLUGIN.fullmatch(found) is not None, True)
    check_faults(tally)
    check_metrics(tally, server)


def check_faults(tally: Tally) -> None:
    """Checks that a missing judgement is UNKNOWN for Nagios, and has a metric."""
    with tempfile.TemporaryDirectory() as folder:
        file = pathlib.Path(folder) / "pgshard.prom"
        found = judge("-h", folder, "--nagios", "--prometheus", str(file)).split("\n")
        tally.check("--nagios without a server", found[-3:], [
            "PGSHARD UNKNOWN - psql ended with status 2, so nothing is judged", "status 3", ""])
        samples = file.read_text().split("\n")
        tally.check("--prometheus without a server", "pgshard_judge_status 4" in samples, True)
    tally.check("--nagios with an unknown option", judge("--nagios", "--none"), (
        "PGSHARD UNKNOWN - unrecognized arguments: --none; --help lists the options\nstatus 3\n"))
    tally.check("--nagios with --json", judge("--nagios", "--json").split("\n")[0], (
        "PGSHARD UNKNOWN - argument --json: not allowed with argument --nagios; --help lists the options"))


def check_metrics(tally: Tally, server: Server) -> None:
    """Checks the file for a database, some names of which have to be escaped."""
    server.create("monitored", f"""
        {BEGIN} CREATE PUBLICATION p FOR TABLE t WHERE (a > 0);
        CREATE TABLE "a ""quoted"" \\name" (id integer PRIMARY KEY);
        CREATE PUBLICATION q FOR TABLE "a ""quoted"" \\name";
        CREATE TABLE u (id integer);
    """)
    with tempfile.TemporaryDirectory() as folder:
        file = pathlib.Path(folder) / "pgshard.prom"
        file.write_text("old")
        found = judge(*server.words("monitored"), "--prometheus", str(file))
        tally.check("what is printed beside --prometheus", found, judge(*server.words("monitored")))
        text = file.read_text()
        tally.check("the form of --prometheus", METRIC.sub("", text), "")
        tally.check("files beside it, and its mode", (
            [it.name for it in pathlib.Path(folder).iterdir()], oct(file.stat().st_mode & 0o777)), (
                ["pgshard.prom"], "0o644"))
        one = 'pgshard_table_answer{database="monitored",table="public.'
        for line in (
                f'{one}t",answer="not_sound"}} 1', f'{one}t",answer="sound"}} 0',
                f'{one}a \\"quoted\\" \\\\name",answer="sound"}} 1',
                'pgshard_unpublished_tables{database="monitored"} 1',
                'pgshard_tables{database="monitored",answer="not_sound"} 1', "pgshard_judge_status 1"):
            tally.check(f"a line for Prometheus: {line}", line if line in text.split("\n") else text, line)
        nowhere = judge(*server.words("monitored"), "--prometheus", f"{folder}/none/file").split("\n")
        tally.check("a file that cannot be written", (nowhere[0].split(":")[:2], nowhere[-2]), (
            ["judge", f" cannot write {folder}/none/file"], "status 2"))
