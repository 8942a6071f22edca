"""What an Insert message costs: written into its frame for one slot whose filter lets all rows pass, and read out of it
and kept until its Commit; beside a plain program that writes and reads the message alone."""

import pathlib
import tempfile

import counting
import limits
import simulating
from measuring import print_table, shown
from workloads import Load

# The bytes of a row's text, and how many messages.
SIZES = ((0, 1_000), (16, 1_000), (1_000, 1_000), (60_000, 100))
HEADS = ["Bytes of a text", "written, instructions", "plain Rust", "read, instructions", "plain Rust"]


def written(setup, load):
    after, before = (simulating.instructions(setup, load, it) for it in ("taken", "committed"))
    return counting.difference(after, before, load.rows)


def delivered(setup, load, path, count):
    """The words of a run in which this many bytes of the messages come to the subscriber, its last line, and how many
    bytes
    came."""
    steps = simulating.blocks(load)
    parts = [simulating.opened(load), steps["changes"], steps["takes"], [f"DELIVER 0 {count};\n"]]
    ends = simulating.write_input(setup, load, parts, path)
    words = simulating.words(setup, load, "delivered")
    return words, ends[-1], int(setup.answer(words, path).split("delivered ")[1].split()[0])


def read(setup, load):
    """Instructions a message: all of them come but for the last byte of the Commit, so that nothing is applied."""
    with tempfile.TemporaryDirectory(prefix="pgshard_bench_") as folder:
        path = pathlib.Path(folder) / "script"
        *_, whole = delivered(setup, load, path, simulating.ALL)
        counts = []
        for count in (whole - 1, 1):
            words, line, came = delivered(setup, load, path, count)
            if came != count:
                raise RuntimeError(f"{came} bytes were delivered for {count}")
            counts.append(counting.instructions_until(line, words, path))
    return counting.difference(*counts, load.rows)


def plain(text):
    """Instructions a message of the plain program, written and read."""
    times = 1_000
    made, encoded, decoded = (limits.instructions("stream", "messages", text, times, it) for it in ("made", "encoded", "decoded"))
    return counting.difference(encoded, made, times), counting.difference(decoded, encoded, times)


def row(setup, text, count):
    load = Load(text=text, rows=count, in_a_commit=count)
    plainly_written, plainly_read = plain(text)
    return [f"{text:,}", *map(shown, (written(setup, load), plainly_written, read(setup, load), plainly_read))]


def measure(setup, _):
    print_table(HEADS, (row(setup, text, count) for text, count in SIZES))
