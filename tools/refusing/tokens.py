"""Splits a source file into tokens, without comments and without what is only for proofs: contracts and ghost items."""

import re
from dataclasses import dataclass

TOKEN = re.compile(r"""
    (?P<space>\s+|//[^\n]*|/\*.*?\*/)
  | (?P<string>b?"(?:\\.|[^"\\])*")
  | (?P<char>b?'(?:\\.[^']*|[^'\\])')
  | (?P<lifetime>'\w+)
  | (?P<word>[^\W\d]\w*)
  | (?P<number>\d\w*)
  | (?P<mark>::|=>|->|\.\.=|\.\.|&&|\|\||[=!<>+\-*/%&|^]=|.)
""", re.X | re.S)

OPEN, CLOSE = "([{", ")]}"
PROVED = {"ensures", "requires"}


@dataclass(frozen=True)
class Token:
    """A token with its line number."""

    text: str
    line: int

    @property
    def is_word(self) -> bool:
        """Returns whether it is a name or a keyword."""
        return self.text[0].isalpha() or self.text[0] == "_"


def tokens_of(text: str) -> list[Token]:
    """Returns the tokens of a file."""
    found, at, line = [], 0, 1
    while at < len(text):
        match = TOKEN.match(text, at)
        assert match is not None
        end = match.end()
        if match["word"] in PROVED:
            end = end_of_block(text, end)
        elif match["word"] == "ghost":
            end = end_of_ghost(text, end)
        elif match["space"] is None:
            found.append(Token(match[0], line))
        line += text.count("\n", at, end)
        at = end
    return found


def end_of_block(text: str, at: int) -> int:
    """Returns where the next braces close."""
    depth = 0
    for place in re.finditer(r'"(?:\\.|[^"\\])*"|[{}]', text[at:]):
        depth += {"{": 1, "}": -1}.get(place[0], 0)
        if depth == 0 and place[0] == "}":
            return at + place.end()
    return len(text)


def end_of_ghost(text: str, at: int) -> int:
    """Returns where a ghost item ends: at its semicolon, outside of braces."""
    depth = 0
    for place in re.finditer(r'"(?:\\.|[^"\\])*"|[{};]', text[at:]):
        depth += {"{": 1, "}": -1}.get(place[0], 0)
        if depth == 0 and place[0] == ";":
            return at + place.end()
    return len(text)


def partners_of(tokens: list[Token]) -> dict[int, int]:
    """Returns the matching bracket of each bracket."""
    found, opened = {}, []
    for at, token in enumerate(tokens):
        if token.text in OPEN:
            opened.append(at)
        elif token.text in CLOSE and opened:
            begin = opened.pop()
            found[begin], found[at] = at, begin
    return found


def written(tokens: list[Token]) -> str:
    """Returns tokens as one line, with a space only between two words."""
    parts: list[str] = []
    for token in tokens:
        if parts and parts[-1][-1].isalnum() and token.text[0].isalnum():
            parts.append(" ")
        parts.append(token.text)
    text = "".join(parts)
    for mark in ("=>", "==", "!=", "&&", "||"):
        text = text.replace(mark, f" {mark} ")
    return re.sub(r"([,;:])(?=[^\s:,;)\]}])(?<!::)", r"\1 ", text).replace(": :", "::")
