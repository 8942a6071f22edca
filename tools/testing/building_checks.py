"""Tests that first_build builds each library after the libraries that it uses, gives the most processes to the library
that the most work depends on, and reports what is not proved."""

import os
import pathlib
import shutil
import subprocess
import tempfile

from tally import Tally

TOOLS = pathlib.Path(__file__).resolve().parent.parent

# Each library, with its lines of code and the libraries that it uses. The most work depends on `low`, and then on
# `long`.
CRATES = {
    "low": (10, ""),
    "long": (400, "low"),
    "short": (10, "low"),
    "high": (10, "long short"),
    "publisher_main": (10, "high"),
}

# Runs in place of rt: records the library, its number of processes and its niceness, and builds the library if those
# that it uses have been built.
RT = """\
#!/bin/sh
name=$(basename "$PWD")
printf '%s %s %s\\n' "$name" "$3" "$(nice)" >> "$NOTES"
for used in $(sed -n "s/^$name: *//p" ../../crates.txt); do
    [ -d ../$used/out/rlib ] || { echo "$used is not built"; exit 1; }
done
[ "$name" != "$FAILS" ] || { echo "a goal of $name is open"; exit 1; }
mkdir -p out/rlib
"""


def check_building(tally: Tally) -> None:
    """Builds the libraries, with a script in place of rt."""
    with tempfile.TemporaryDirectory() as folder:
        root = repository(pathlib.Path(folder))
        status, told, notes = build(root, fails="short")
        tally.check("a library that is not proved", (status, "a goal of short is open" in told), (1, True))
        tally.check("what is built after it", "high" in notes, False)
        status, told, notes = build(root, fails="")
        first, *others, last = notes or [""]
        # Two of the libraries are started together, and either may be recorded first.
        tally.check(
            "the libraries that are built", (status, first, sorted(others), last), (0, "low", ["long", "short"], "high"))
        processes, nice = notes["low"]
        tally.check("what has all processes", {notes[it] for it in ("low", "long", "high")}, {(processes, os.nice(0))})
        if processes > 1:
            tally.check("what gives way to it", notes["short"], (processes // 2, min(nice + 10, 19)))


def repository(root: pathlib.Path) -> pathlib.Path:
    """Creates a repository that contains these libraries and first_build."""
    (root / "tools").mkdir(parents=True)
    shutil.copy2(TOOLS / "first_build", root / "tools")
    shutil.copytree(TOOLS / "building", root / "tools" / "building")
    (root / "HANDLES").write_text("Handles allowed: none.\n")
    (root / "crates.txt").write_text("".join(f"{name}: {uses}\n" for name, (_, uses) in CRATES.items()))
    for name, (lines, _) in CRATES.items():
        (root / "crates" / name / "src").mkdir(parents=True)
        (root / "crates" / name / "src" / "lib.rt").write_text("//!\n" * lines)
    (root / "bin").mkdir()
    (root / "bin" / "rt").write_text(RT)
    (root / "bin" / "rt").chmod(0o755)
    return root


def build(root: pathlib.Path, fails: str) -> tuple[int, str, dict[str, tuple[int, int]]]:
    """Returns the status of first_build, its messages, and the number of processes and the niceness of each library, in
    the order in which they were started."""
    notes = root / "notes"
    notes.write_text("")
    variables = {"PATH": f"{root / 'bin'}:{os.environ['PATH']}", "NOTES": str(notes), "FAILS": fails}
    ran = subprocess.run(
        [root / "tools" / "first_build"], stderr=subprocess.PIPE, encoding="utf-8", env=os.environ | variables)
    lines = [line.split() for line in notes.read_text().splitlines()]
    return ran.returncode, ran.stderr, {name: (int(jobs), int(nice)) for name, jobs, nice in lines}
