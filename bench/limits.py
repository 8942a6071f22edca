"""The programs in bench/limits, which do without a proof what pgshard does, built by `rustc -O`."""

import functools
import pathlib
import shutil
import subprocess
import tempfile

import counting

SOURCES = pathlib.Path(__file__).resolve().parent / "limits"
FOLDER = tempfile.TemporaryDirectory(prefix="pgshard_bench_")


@functools.cache
def built(name):
    """The program of this name, built once; None without rustc."""
    if not shutil.which("rustc"):
        return None
    program = pathlib.Path(FOLDER.name) / name
    words = ["rustc", "-O", "--edition", "2021", "-o", str(program), str(SOURCES / f"{name}.rs")]
    subprocess.run(words, check=True, cwd=FOLDER.name)
    return program


@functools.cache
def instructions(name, *words, path="/dev/null"):
    """How many instructions a run takes; None without rustc or valgrind."""
    program = built(name)
    return None if program is None else counting.instructions([program, *words], path)
