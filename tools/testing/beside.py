"""Runs the parts that need a server in a process of their own, beside the others."""

import contextlib
import re
import subprocess
import tempfile
from collections.abc import Iterator, Sequence

from part_runner import SERVER, Part
from tally import Tally

# The last line of a run.
COUNTS = re.compile(r"(\d+) passed, (\d+) failed\n?\Z")


def halves(parts: Sequence[Part]) -> tuple[list[Part], list[Part]]:
    """Returns the parts that need no server, and those that share one."""
    return [it for it in parts if SERVER not in it.needs], [it for it in parts if SERVER in it.needs]


@contextlib.contextmanager
def beside(tally: Tally, command: Sequence[str]) -> Iterator[None]:
    """Runs a command that ends with the counts of its checks beside the block. Then prints its other lines, and adds
    its counts."""
    with tempfile.TemporaryFile("w+", encoding="utf-8") as output:
        with subprocess.Popen(command, stdin=subprocess.DEVNULL, stdout=output, stderr=subprocess.STDOUT) as process:
            yield
        output.seek(0)
        add(tally, output.read(), process.returncode)


def add(tally: Tally, printed: str, status: int) -> None:
    """Prints what a command printed before its counts, and adds these. A command without them counts as a failed
    check."""
    found = COUNTS.search(printed)
    print(printed if found is None else printed[:found.start()], end="", flush=True)
    if found is None:
        tally.failed += 1
        print(f"failed: the parts that need a server ended with status {status}, and did not count their checks")
        return
    tally.passed += int(found[1])
    tally.failed += int(found[2])
