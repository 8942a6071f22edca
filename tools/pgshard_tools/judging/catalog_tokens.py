"""The statements of a catalog text that pgshard reads, as lists of tokens."""

import re
from collections.abc import Iterable, Iterator
from dataclasses import dataclass

TOKEN = re.compile(r"""\s+|--[^\n\r]*|/\*|'(?:[^']|'')*'|"(?:[^"]|"")*"|[\w$]+|.""", re.S)


@dataclass
class Table:
    """A table's name, as stored and as written, and its columns."""

    name: str
    written: str
    columns: list[str]


def placed_tokens(text: str) -> Iterator[tuple[int, str]]:
    """Yields the tokens of a catalog with their positions, without white space and comments."""
    at = 0
    while at < len(text):
        found = TOKEN.match(text, at)
        # A character that begins no longer token is a token itself.
        token = found[0] if found else text[at]
        if token == "/*":
            at = end_of_comment(text, at)
            continue
        if not token.isspace() and not token.startswith("--"):
            yield at, token
        at += len(token)


def tokens_of(text: str) -> Iterable[str]:
    """Returns the tokens of a catalog, without white space and comments."""
    return (token for _, token in placed_tokens(text))


def end_of_comment(text: str, begin: int) -> int:
    """Returns the position after a comment, which may contain other comments."""
    depth = 0
    for mark in re.finditer(r"/\*|\*/", text[begin:]):
        depth += 1 if mark.group() == "/*" else -1
        if depth == 0:
            return begin + mark.end()
    return len(text)


def statements_of(text: str) -> Iterator[list[str]]:
    """Yields the statements, without their semicolons."""
    statement: list[str] = []
    for token in tokens_of(text):
        if token == ";":
            yield statement
            statement = []
        else:
            statement.append(token)


def stored(token: str) -> str:
    """Returns a name as it is stored."""
    return token[1:-1].replace('""', '"') if token.startswith('"') else token.lower()


def table_of(tokens: list[str]) -> Table:
    """Returns the table that CREATE TABLE creates, from the tokens after these words."""
    begin = tokens.index("(")
    name = ".".join(stored(token) for token in tokens[:begin] if token != ".")
    columns: list[str] = []
    depth = 0
    for before, token in zip(tokens[begin:], tokens[begin + 1:]):
        depth += (before == "(") - (before == ")")
        if depth == 1 and before in "(," and token.upper() != "PRIMARY":
            columns.append(stored(token))
    return Table(name if "." in tokens[:begin] else f"public.{name}", "".join(tokens[:begin]), columns)
