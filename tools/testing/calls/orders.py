"""The order of rows."""

from collections.abc import Iterator

from .table import Call

# Rows in ascending order, each less than all that follow: column by column from the left, and within a column in the
# order that PostgreSQL has under ORDER BY .. NULLS FIRST, with texts in the collation "C". The order of rows with
# different numbers of columns, and of values of different types, is this program's own.
ASCENDING = [
    "", "null", "null null", "null '", "null 'a", "-9223372036854775808", "-2", "-1", "0", "5", "7 null", "7 'e",
    "7 'eu", "7 'us", "40", "9223372036854775807", "false", "true", "'", "'10", "'9", "'Z", "'a", "'a\\x20", "'ab",
    "'b", "'é", "'ﬀ", "'😀"]


def calls() -> Iterator[Call]:
    """Compares each row with each other row."""
    for place, row in enumerate(ASCENDING):
        for other, other_row in enumerate(ASCENDING):
            order = "Less" if place < other else "Equal" if place == other else "Greater"
            yield Call(f"value.order {row}|{other_row}", f"{order} {str(place == other).lower()}")
