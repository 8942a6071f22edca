"""Rows as text: some in a form that outputs do not have, and some that are malformed, with their fault."""

import random

from model.catalogs import Row, Value
from model.values import LONGEST_TEXT, written, written_row

from .texts import FLAT_SPACES, Exact, commas, joined

# Characters that begin no token: control characters other than white space, and some others.
NO_TOKENS = [*map(chr, range(9)), "\v", *map(chr, range(14, 32)), "\x7f", "{", "}", "[", "]", "$", "\\", "é", ":"]

# Tokens that are not values, with the kind of their fault.
NO_VALUES = [
    ("maybe", "Expected"), (";", "Expected"), ("9223372036854775808", "NumberTooLarge"), ("5x", "BadToken"),
    ("1.5", "LeftOut"), ("E'a'", "LeftOut"), ("'nul\0'", "BadToken"), ("'" + "x" * (LONGEST_TEXT + 1) + "'", "TooMany"),
    ("=", "Expected"), ("'a' 'b'", None), ("\"a\"", "Expected"), ("%%", "LeftOut"),
]


def value_tokens(value: Value, chance: random.Random) -> list[str]:
    """Returns the tokens of a value."""
    if isinstance(value, int) and not isinstance(value, bool):
        return ["-", str(-value)] if value < 0 else [str(value)]
    if isinstance(value, str) and chance.random() < 0.1:
        return [Exact(written(value)), "::", "text"]
    return [Exact(written(value))] if isinstance(value, str) else [written(value)]


def row_tokens(row: Row, chance: random.Random) -> list[str]:
    """Returns the tokens of a row."""
    return ["(", *commas([value_tokens(value, chance) for value in row]), ")"]


def row_text(row: Row, chance: random.Random) -> str:
    """Returns a row on one line, unless its texts contain newlines."""
    if chance.random() < 0.7:
        return written_row(row)
    if chance.random() < 0.5:
        return "".join(row_tokens(row, chance))
    return joined(row_tokens(row, chance), chance, True, FLAT_SPACES)


def no_row(row: Row, chance: random.Random) -> tuple[str, str]:
    """Returns a line that is not a row, and the answer of `eval`."""
    tokens = row_tokens(row, chance)
    at = chance.randrange(len(tokens))
    before = " ".join(tokens[:at])
    place = len(before.encode()) + (1 if before else 0)
    match chance.randrange(4):
        case 0:
            return before, f"unreadable {len(before.encode())} Expected"
        case 1:
            return with_next(before, chance.choice(NO_TOKENS)), f"unreadable {place} BadToken"
        case 2:
            text = " ".join(tokens)
            return f"{text} {chance.choice(['x', '(', ','])}", f"unreadable {len(text.encode()) + 1} Expected"
    return with_value(row, chance)


def with_next(before: str, token: str) -> str:
    """Appends a token to a text."""
    return f"{before} {token}" if before else token


def with_value(row: Row, chance: random.Random) -> tuple[str, str]:
    """Returns a row with something that is not a value, and the answer of `eval`."""
    at = chance.randrange(max(1, len(row)))
    values = [" ".join(value_tokens(value, chance)) for value in row[:at]]
    before = "( " + "".join(f"{value} , " for value in values)
    place = len(before.encode())
    word, kind = chance.choice(NO_VALUES)
    if kind is None:
        place += len("'a' ")
    return f"{before}{word} )", f"unreadable {place} {kind or 'Expected'}"
