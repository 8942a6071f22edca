"""Tests that what `show` prints of a catalog is read back: `show` prints the same of it."""

import re
from collections.abc import Callable

# The end of the first part of an input.
SEPARATOR = re.compile(rb"^%%$", re.M)

# Makes a run of `show` with this input, and returns its status and its output.
Show = Callable[[bytes], tuple[int | None, str]]


def first_part(text: bytes) -> bytes:
    """Returns the first part of an input."""
    separator = SEPARATOR.search(text)
    return text if separator is None else text[:separator.start()]


def fault_of(show: Show, catalog: bytes) -> str | None:
    """Returns what is wrong with what `show` prints of a catalog, nothing if it is right, or None if the catalog is not
    read."""
    status, shown = show(catalog)
    if status == 3:
        return None
    if status != 0:
        return f"show of the catalog ends with status {status}"
    return "" if show(shown.encode()) == (0, shown) else "what show prints of the catalog is not shown again"
