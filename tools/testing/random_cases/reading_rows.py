"""Reads rows of outputs."""

import re

from model.catalogs import Row, Value

VALUE = re.compile(r"NULL|TRUE|FALSE|-?[0-9]+|'(?:[^']|'')*'", re.A)
WORDS: dict[str, Value] = {"NULL": None, "TRUE": True, "FALSE": False}


def read_row(text: str) -> tuple[Row | None, str]:
    """Returns the row at the beginning of a text, if there is one, and the rest of the text."""
    values: list[Value] = []
    at = 0
    opening = "("
    while text.startswith(opening, at):
        found = VALUE.match(text, at + len(opening))
        if found is None:
            return None, text
        values.append(value_of(found[0]))
        at = found.end()
        opening = ", "
        if text.startswith(")", at):
            return tuple(values), text[at + 1:]
    return None, text


def value_of(word: str) -> Value:
    """Returns a value."""
    if word in WORDS:
        return WORDS[word]
    return word[1:-1].replace("''", "'") if word.startswith("'") else int(word)
