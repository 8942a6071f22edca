"""Finds a Python that has a library."""

import subprocess
import sys

# Debian's packages are installed for the second one, which need not be the first on the path.
PYTHONS = [sys.executable, "/usr/bin/python3"]


def python_with(library: str) -> str | None:
    """Returns the first Python that has the library, or None."""
    for python in PYTHONS:
        try:
            answer = subprocess.run([python, "-c", f"import {library}"], stderr=subprocess.DEVNULL)
        except OSError:
            continue
        if answer.returncode == 0:
            return python
    return None
