"""Values and rows: which fit a table, how they are written, and their order."""

from .catalogs import Row, Table, Value

# An integer is at least minus this number, and below it.
ENDS = {"smallint": 2**15, "integer": 2**31, "bigint": 2**63}
LONGEST_TEXT = 65_535


def row_fault(table: Table, row: Row) -> str | None:
    """Returns the first fault of a row, as outputs have it."""
    if len(row) != len(table.columns):
        return "Width"
    for number, (column, value) in enumerate(zip(table.columns, row)):
        fault = value_fault(column.kind, column.not_null or number in table.key, value)
        if fault is not None:
            return f"{fault} {number}"
    return None


def value_fault(kind: str, not_null: bool, value: Value) -> str | None:
    """Returns the first fault of a value in a column."""
    if value is None:
        return "NullInNotNull" if not_null else None
    if kind_of(value) != ("integer" if kind in ENDS else kind):
        return "WrongType"
    if kind in ENDS and not -ENDS[kind] <= value < ENDS[kind]:
        return "OutOfRange"
    if kind == "text" and "\0" in value:
        return "NulInText"
    if kind == "text" and len(value.encode()) > LONGEST_TEXT:
        return "TextTooLong"
    return None


def kind_of(value: Value) -> str:
    """Returns the type of a value that is not null."""
    if isinstance(value, bool):
        return "boolean"
    return "integer" if isinstance(value, int) else "text"


def written(value: Value) -> str:
    """Returns a value as rows have it."""
    if value is None:
        return "NULL"
    if isinstance(value, bool):
        return "TRUE" if value else "FALSE"
    if isinstance(value, int):
        return str(value)
    return "'" + value.replace("'", "''") + "'"


def written_row(row: Row) -> str:
    """Returns a row as outputs have it."""
    return "(" + ", ".join(written(value) for value in row) + ")"


def spelled(value: Value) -> bytes:
    """Returns the text of a value in a message, if it is not null."""
    if isinstance(value, bool):
        return b"t" if value else b"f"
    return str(value).encode()


def order_of(row: Row) -> tuple:
    """Returns the sort key of rows: column by column, null first, numbers by value, texts by their bytes."""
    return tuple((value is not None, value.encode() if isinstance(value, str) else value or 0) for value in row)


def told_apart(values: Row) -> tuple:
    """Returns a key that is equal only for equal values: Python considers True and 1 equal."""
    return tuple((type(value), value) for value in values)
