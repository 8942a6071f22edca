"""Runs the built program with a library that counts what the system refused."""

import os
import pathlib
import re
import shutil
import subprocess
from dataclasses import dataclass

from programs import program

TESTING = pathlib.Path(__file__).resolve().parent.parent

# The time limit of a run in seconds, also on a busy machine.
SECONDS = 300

COUNTS = re.compile("([0-9]+) refused, ([0-9]+) failed")

# Answers that only a refusal by the system may cause, as whole lines.
GIVEN_UP = re.compile("^(out of memory|refused OutOfMemory)$", re.M)


@dataclass(frozen=True)
class Answer:
    """A run's status, or None if it took too long; its output; and how much the program was refused."""

    status: int | None
    output: str
    refused: int = 0

    def giving_up(self) -> str | None:
        """Returns how the program says that memory, its input or its output failed, if it does."""
        line = GIVEN_UP.search(self.output)
        if line is not None:
            return f"a line is {line[0]!r}"
        if self.status is None or not 0 <= self.status <= 3:
            return f"the status is {self.status}"
        return "the line is 'input'" if self.output == "input\n" else None


def compiled(folder: str, name: str = "watching") -> str | None:
    """Compiles a library, by default the one that counts, if there is a C compiler."""
    if shutil.which("cc") is None:
        return None
    library = f"{folder}/{name}.so"
    subprocess.run(["cc", "-shared", "-fPIC", "-O", "-o", library, TESTING / f"{name}.c"], check=True)
    return library


def run(words: tuple[str, ...], text: bytes, library: str | None) -> Answer:
    """Makes a run."""
    variables = {} if library is None else {"LD_PRELOAD": library}
    try:
        ended = subprocess.run(
            [program(), *words], input=text, stdout=subprocess.PIPE, stderr=subprocess.PIPE, timeout=SECONDS,
            env=os.environ | variables)
    except subprocess.TimeoutExpired:
        return Answer(None, f"no end within {SECONDS} seconds\n")
    counts = COUNTS.findall(ended.stderr.decode(errors="replace"))
    refused = sum(int(number) for pair in counts for number in pair)
    return Answer(ended.returncode, ended.stdout.decode(errors="backslashreplace"), refused)
