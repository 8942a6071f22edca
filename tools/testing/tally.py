"""Counts the checks that pass and fail, and prints those that fail."""

import difflib

# Longer lines are cut: some outputs have lines of 100,000 characters.
SHOWN = 1000


class Tally:
    """Counts checks."""

    passed = 0
    failed = 0

    def check(self, what: str, found: object, expected: object) -> None:
        """Counts a check, and prints it if it fails."""
        if found == expected:
            self.passed += 1
            return
        self.failed += 1
        show(f"failed: {what}")
        if isinstance(expected, str) and isinstance(found, str) and "\n" in expected:
            lines = expected.split("\n"), found.split("\n")
            for line in difflib.unified_diff(*lines, "expected", "found", n=1, lineterm=""):
                show(line)
        else:
            show(f"  found:    {found!r}")
            show(f"  expected: {expected!r}")


def show(line: str) -> None:
    """Prints a line, cut if it is long."""
    more = len(line) - SHOWN
    print(line if more <= 0 else f"{line[:SHOWN]} .. and {more} characters")
