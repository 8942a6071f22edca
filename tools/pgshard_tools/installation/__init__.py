"""Finds where pgshard is, and its version: in a repository, in an installed copy, or in a Python environment."""

import os
import pathlib
import shutil

ROOT = str(pathlib.Path(__file__).resolve().parents[3])

# The name of the tools as a Python package (pyproject.toml).
PACKAGE = "pgshard-tools"


def version() -> str:
    """Returns the version, from the file VERSION, or from Python's record of the package."""
    try:
        with open(os.path.join(ROOT, "VERSION"), encoding="utf-8") as file:
            return file.read().strip()
    except OSError:
        return version_of_package()


def version_of_package() -> str:
    """Returns the version of the installed package, if there is one."""
    from importlib import metadata
    try:
        return metadata.version(PACKAGE)
    except metadata.PackageNotFoundError:
        return "of no known version"


def script() -> str:
    """Returns the script pgshard: the one next to the tools, or otherwise the one on the path."""
    own = os.path.join(ROOT, "pgshard")
    return own if os.path.exists(own) else shutil.which("pgshard") or "pgshard"
