"""Inputs that do not have two parts, that are not UTF-8, or that are too long."""

from collections.abc import Iterator

from .case import Case

TABLE = "CREATE TABLE t (id integer PRIMARY KEY);"

# The longest input, in bytes.
MAX_INPUT = 16_777_216

# What follows the table's line, and the output and the status.
ENDS: list[tuple[bytes, str, int]] = [
    (b"", "input\n", 3),
    (b"\n", "input\n", 3),
    (b"(1)\n", "input\n", 3),
    (b"%%\n(1)\n%%\n", "input\n", 3),
    (b"%%\n%%", "input\n", 3),
    (b"%% \n(1)\n", "input\n", 3),
    (b" %%\n(1)\n", "input\n", 3),
    (b"%%%\n(1)\n", "input\n", 3),
    (b"%%\r\n(1)\n", "input\n", 3),
    (b"%%\n\xff\n", "input\n", 3),
    (b"%%", "", 0),
]

# The number of an input's bytes, and the output and the status.
LENGTHS: list[tuple[int, str, int]] = [
    (MAX_INPUT, "\n", 0),
    (MAX_INPUT + 1, "input\n", 3),
]


def cases() -> Iterator[Case]:
    """Yields a run of eval for each."""
    words = ("eval", "t")
    for number, (end, expected, status) in enumerate(ENDS, 1):
        yield Case(f"parts of an input, case {number}", words, TABLE.encode() + b"\n" + end, status, expected)
    for length, expected, status in LENGTHS:
        yield Case(f"an input of {length} bytes", words, spaced(length), status, expected)


def spaced(length: int) -> str:
    """Returns a catalog and a row with enough spaces between them to reach this length."""
    rows = "\n%%\n(1)"
    return TABLE + " " * (length - len(TABLE) - len(rows)) + rows
