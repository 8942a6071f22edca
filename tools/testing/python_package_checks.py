"""Tests that the tools are a Python package: pip installs it without a network, its commands run, and no module imports
itself through others."""

import ast
import os
import pathlib
import shutil
import subprocess
import tempfile

from programs import PGSHARD, TOOLS, judge
from pythons import python_with
from tally import Tally

# The libraries that pip needs to build and install a package without a network.
NEEDED = "ensurepip, setuptools, wheel"

ROOT = TOOLS.parent
CATALOG = ROOT / "examples" / "shop.sql"
FILES = ["pyproject.toml", "README.md", "VERSION"]
PACKAGE = "pgshard_tools"

Imports = dict[str, set[str]]


def check_python_package(tally: Tally) -> None:
    """Tests what is installed, and what its commands print."""
    tally.check("modules that import themselves", cycle_in(imports_of(TOOLS)), [])
    with tempfile.TemporaryDirectory() as folder:
        commands = installed(pathlib.Path(folder))
        version = (ROOT / "VERSION").read_text(encoding="utf-8").strip()
        for name in "judge", "front":
            tally.check(f"the version of {name}", output_of(commands / f"pgshard-{name}", "--version"),
                        f"{name} (pgshard) {version}\n")
        tally.check("judge of a file", output_of(commands / "pgshard-judge", CATALOG) + "status 0\n", judge(CATALOG))
        path = f"{commands}:/usr/bin:/bin"
        missing = subprocess.run(
            [commands / "pgshard-judge", CATALOG], capture_output=True, encoding="utf-8", env={"PATH": path})
        tally.check("judge without a program", (missing.returncode, missing.stderr), (
            5, "judge: the command pgshard is not found; the environment variable PGSHARD may name it\n"))


def installed(folder: pathlib.Path) -> pathlib.Path:
    """Installs a copy of the package into a new environment, and returns the folder of its commands."""
    copy, environment = folder / "copy", folder / "environment"
    (copy / "tools").mkdir(parents=True)
    for name in FILES:
        shutil.copy2(ROOT / name, copy / name)
    shutil.copytree(TOOLS / PACKAGE, copy / "tools" / PACKAGE, ignore=shutil.ignore_patterns("__pycache__"))
    python = python_with(NEEDED)
    assert python is not None
    subprocess.run([python, "-m", "venv", "--system-site-packages", environment], check=True)
    words = ["install", "--quiet", "--no-build-isolation", "--no-deps", "--no-index", "--disable-pip-version-check"]
    subprocess.run([environment / "bin" / "python", "-m", "pip", *words, copy], check=True)
    return environment / "bin"


def output_of(command: pathlib.Path, *words: str | pathlib.Path) -> str:
    """Returns what an installed command prints, with the program under test."""
    environment = os.environ | {"PGSHARD": os.path.abspath(PGSHARD)}
    return subprocess.run([command, *words], stdout=subprocess.PIPE, encoding="utf-8", env=environment).stdout


def imports_of(folder: pathlib.Path) -> Imports:
    """Returns the modules of a folder, each with the modules that it imports. Tests import one another by their names
    in testing/."""
    paths = {module_name(path.relative_to(folder)): path for path in folder.rglob("*.py")}
    return {name: named_in(path) & paths.keys() - {name} for name, path in paths.items()}


def module_name(path: pathlib.Path) -> str:
    """Returns the name by which a file is imported."""
    parts = path.with_suffix("").parts
    return ".".join(parts[1:] if parts[0] == "testing" else parts).removesuffix(".__init__")


def named_in(path: pathlib.Path) -> set[str]:
    """Returns what a file imports: modules, and names in them, which may be modules too."""
    found = set()
    for node in ast.walk(ast.parse(path.read_text(encoding="utf-8"))):
        if isinstance(node, ast.Import):
            found.update(alias.name for alias in node.names)
        elif isinstance(node, ast.ImportFrom) and node.module is not None:
            found.add(node.module)
            found.update(f"{node.module}.{alias.name}" for alias in node.names)
    return found


def cycle_in(imports: Imports) -> list[str]:
    """Returns modules that import themselves through others, if there are any: those that remain after every module is
    removed that imports none of the remaining ones or is imported by none of them."""
    left = dict(imports)
    while True:
        named = set().union(*(its & left.keys() for its in left.values()))
        out = [name for name, its in left.items() if not its & left.keys() or name not in named]
        if not out:
            return sorted(left)
        for name in out:
            del left[name]
