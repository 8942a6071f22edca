"""Tests the consumer tests of examples/, which the documents recommend as a starting point."""

import subprocess

from programs import PGSHARD, TOOLS
from pythons import python_with
from server import environment
from tally import Tally

ROOT = TOOLS.parent

# The path at which Debian installs pgjdbc.
DRIVER = "/usr/share/java/postgresql.jar"

SECONDS = 180

CUT = "cut after 1 transaction, in the second"


def check_python(tally: Tally) -> None:
    """Tests the one with psycopg2."""
    check_consumer(tally, str(python_with("psycopg2")), "examples/consumer_test.py")


def check_java(tally: Tally) -> None:
    """Tests the one with pgjdbc."""
    check_consumer(tally, "java", "-cp", DRIVER, "examples/ConsumerTest.java")


def check_consumer(tally: Tally, *words: str) -> None:
    """Checks that a consumer whose connections are cut gets each transaction exactly once."""
    answer = subprocess.run(
        words, stdin=subprocess.DEVNULL, stdout=subprocess.PIPE, stderr=subprocess.PIPE, encoding="utf-8",
        timeout=SECONDS, cwd=ROOT, env=environment() | {"PGSHARD": PGSHARD})
    lines = answer.stdout.splitlines()
    name = words[-1]
    tally.check(f"{name}: its status", answer.returncode, 0)
    tally.check(f"{name}: its first line", lines[:1], [CUT])
    ends = [line.split()[0] for line in lines[1:-1]]
    tally.check(f"{name}: where its transactions end", ends, ["0/80", "0/C0", "0/100"])
    tally.check(f"{name}: its last line", lines[-1:], ["nothing is lost"])
