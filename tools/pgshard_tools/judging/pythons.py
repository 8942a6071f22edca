"""Finds a Python that has pglast, PostgreSQL's parser as a library."""

import importlib.util
import os
from collections.abc import Sequence

# Debian's packages are for this Python, which need not be the first one on the path.
SYSTEM_PYTHON = "/usr/bin/python3"
TRIED = "JUDGE_TRIED_SYSTEM_PYTHON"


def has_pglast() -> bool:
    """Returns whether this Python has it."""
    return importlib.util.find_spec("pglast") is not None


def go_where_pglast_is(script: str, words: Sequence[str]) -> None:
    """Runs the script again with the system's Python, if this one has no pglast."""
    if not has_pglast() and TRIED not in os.environ and os.access(SYSTEM_PYTHON, os.X_OK):
        os.execve(SYSTEM_PYTHON, [SYSTEM_PYTHON, script, *words], os.environ | {TRIED: "1"})
