"""What other work on the machine does not change: instructions, and bytes of the heap, as valgrind counts them."""

import fcntl
import os
import pathlib
import re
import shutil
import subprocess
import tempfile
import time

from measuring import processor_time

COUNTING = ["--tool=cachegrind", "--cache-sim=no", "--cachegrind-out-file=/dev/null"]
PIPE = 4_096
LINE = re.compile(r"I\s+refs:\s+([\d,]+)")
# Copies of long texts by vectors: valgrind would count an instruction for each byte of those that a processor makes
# itself.
BY_VECTORS = {**os.environ, "GLIBC_TUNABLES": "glibc.cpu.x86_rep_movsb_threshold=1000000000"}
HEAP = re.compile(r"mem_heap_B=(\d+)\nmem_heap_extra_B=(\d+)")


def is_installed():
    return shutil.which("valgrind") is not None


def ran(tool, words, path):
    """What valgrind says of a run of a program whose input is a file."""
    whole = ["valgrind", *tool, *map(str, words)]
    with open(path, "rb") as text:
        run = subprocess.run(whole, stdin=text, stdout=subprocess.DEVNULL, stderr=subprocess.PIPE, env=BY_VECTORS)
    return run.stderr.decode(errors="replace")


def count_in(told):
    """The instructions in what valgrind says."""
    found = LINE.search(told)
    if not found:
        raise RuntimeError(f"valgrind did not count: {told[-500:]}")
    return int(found[1].replace(",", ""))


def instructions(words, path="/dev/null"):
    """How many instructions a run takes; None without valgrind."""
    if not is_installed():
        return None
    return count_in(ran(COUNTING, words, path))


def is_asleep(process):
    """Whether it is not one that would run if it had a processor (man 5 proc_pid_stat)."""
    told = pathlib.Path(f"/proc/{process.pid}/stat").read_text()
    return told.rpartition(")")[2].split()[0] not in ("R", "D")


def is_waiting(process):
    """Whether it takes no processor time for a while, though it might."""
    before = processor_time(process.pid)
    time.sleep(0.1)
    return is_asleep(process) and processor_time(process.pid) == before


def instructions_until(line, words, path):
    """How many instructions a run takes up to about this line of its output, which it has to wait to write: it is
    stopped
    there, so that nothing counts that it would give back at its end. None without valgrind.

    It is read by whole pages of a pipe that has one, so that it waits at the same place each time."""
    if not is_installed():
        return None
    lines, whole = 0, ["valgrind", *COUNTING, *map(str, words)]
    with open(path, "rb") as text, tempfile.TemporaryFile() as told:
        with subprocess.Popen(whole, stdin=text, stdout=subprocess.PIPE, stderr=told, env=BY_VECTORS) as process:
            fcntl.fcntl(process.stdout, fcntl.F_SETPIPE_SZ, PIPE)
            while lines < line and (piece := os.read(process.stdout.fileno(), PIPE)):
                lines += piece.count(b"\n")
            while not is_waiting(process):
                pass
            process.terminate()
            process.wait()
        told.seek(0)
        return count_in(told.read().decode(errors="replace"))


def heap_bytes(words, path="/dev/null"):
    """What a run has on the heap for most of its last tenth, with what the allocator adds; None without valgrind."""
    if not is_installed():
        return None
    with tempfile.TemporaryDirectory(prefix="pgshard_bench_") as folder:
        out = pathlib.Path(folder) / "massif"
        ran(["--tool=massif", "--depth=1", "--max-snapshots=200", f"--massif-out-file={out}"], words, path)
        sizes = [int(heap) + int(more) for heap, more in HEAP.findall(out.read_text())]
    last = sorted(sizes[-len(sizes) // 10 :])
    return last[len(last) // 2]


def difference(after, before, count):
    """How many more of something, for each of this many; None if one is not known."""
    return None if after is None or before is None else (after - before) / count
