"""Splits a query into tokens in one pass, in time proportional to its length, whatever a client sends."""

import string
from collections.abc import Iterator
from enum import Enum, auto
from typing import NamedTuple

# The letters that are folded to lower case. PostgreSQL folds no others in UTF8.
FOLDED = str.maketrans(string.ascii_uppercase, string.ascii_lowercase)

# No client's query has more tokens: a COPY of a table of 100 columns has about 200.
MOST_TOKENS = 1_000


class TooManyTokens(Exception):
    """The query is longer than any that can be answered."""


class Kind(Enum):
    """The kind of a token."""

    WORD = auto()
    NAME = auto()
    STRING = auto()
    MARK = auto()


class Token(NamedTuple):
    """A word in lower case, a quoted name or a string without its quotes, or a mark, with its position in the query."""

    kind: Kind
    text: str
    begin: int
    end: int

    def is_mark(self, mark: str) -> bool:
        """Returns whether it is this mark."""
        return self.kind is Kind.MARK and self.text == mark

    def is_name(self) -> bool:
        """Returns whether it can be a name."""
        return self.kind in (Kind.WORD, Kind.NAME)


def tokens_of(query: str) -> list[Token]:
    """The tokens of a query, without a semicolon at its end."""
    tokens: list[Token] = []
    for token in cut(query):
        if len(tokens) == MOST_TOKENS:
            raise TooManyTokens
        tokens.append(token)
    if tokens and tokens[-1].is_mark(";"):
        tokens.pop()
    return tokens


def cut(query: str) -> Iterator[Token]:
    """Yields the tokens from the left. A quote that is not closed is a mark that includes the rest of the query."""
    at = 0
    while at < len(query):
        letter = query[at]
        if letter.isspace():
            at += 1
        elif letter in "'\"":
            token = quoted(query, at)
            yield token
            at = token.end
        else:
            end = word_end(query, at)
            kind = Kind.WORD if end > at else Kind.MARK
            end = max(end, at + 1)
            yield Token(kind, query[at:end].translate(FOLDED), at, end)
            at = end


def word_end(query: str, begin: int) -> int:
    """Returns the end of the word that begins at a place, or the place itself if no word begins there."""
    end = begin
    while end < len(query) and (query[end].isalnum() or query[end] in "_$"):
        end += 1
    return end


def quoted(query: str, begin: int) -> Token:
    """The string or the quoted name at a place."""
    quote = query[begin]
    parts = []
    at = begin + 1
    while True:
        end = query.find(quote, at)
        if end < 0:
            return Token(Kind.MARK, query[begin:], begin, len(query))
        parts.append(query[at:end])
        if query[end + 1:end + 2] != quote:
            kind = Kind.STRING if quote == "'" else Kind.NAME
            return Token(kind, quote.join(parts), begin, end + 1)
        at = end + 2
