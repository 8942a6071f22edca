"""Runs these tests with a Python that has pglast, which some of the modules need, and mypy on the modules."""

import os
import pathlib
import subprocess

from pythons import python_with
from tally import Tally

FOLDER = pathlib.Path(__file__).resolve().parent

# The installed parts of tools/.
INSTALLED = ["pgshard_tools", "judge"]


def check_types(tally: Tally) -> None:
    """Checks all installed modules with mypy --strict."""
    python = python_with("mypy")
    assert python is not None
    answer = subprocess.run(
        [python, "-m", "mypy", "--strict", "--cache-dir", os.devnull, *INSTALLED], cwd=FOLDER.parent.parent,
        capture_output=True, encoding="utf-8")
    tally.check("mypy --strict", "" if answer.returncode == 0 else answer.stdout, "")


def check_units(tally: Tally) -> None:
    """Runs each file of tests as one check."""
    python = python_with("pglast")
    assert python is not None
    environment = os.environ | {"PYTHONDONTWRITEBYTECODE": "1", "PYTHONPATH": str(FOLDER.parent.parent)}
    for path in sorted(FOLDER.glob("test_*.py")):
        answer = subprocess.run(
            [python, "-m", "unittest", "-q", f"units.{path.stem}"], cwd=FOLDER.parent, capture_output=True,
            encoding="utf-8", env=environment)
        tally.check(f"units/{path.name}", "" if answer.returncode == 0 else answer.stderr, "")
