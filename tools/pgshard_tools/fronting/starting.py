"""START_REPLICATION as clients send it, and as pgshard serve accepts it."""

from collections.abc import Sequence
from dataclasses import dataclass, replace

from pgshard_tools.fronting.frames import position_text
from pgshard_tools.fronting.tokens import Kind, Token, tokens_of

# Later protocol versions only permit the publisher more, and require nothing more of it.
LATER_VERSIONS = {"2", "3"}
# These permit the publisher to send transactions before they are committed, values in binary form, and messages other
# than changes.
PERMISSIONS = {"streaming", "binary", "two_phase", "messages"}

# The tokens of a start before its options: START_REPLICATION SLOT s LOGICAL 0 / 0.
HEAD = 7

Option = tuple[Token, Token | None]


@dataclass(frozen=True)
class Start:
    """A slot, the position from which its stream is requested, and the options as written, with the publications that
    they name."""

    slot: str
    position: int
    before: str
    options: str
    publications: frozenset[str]

    def at(self, position: int) -> "Start":
        """The same start from another position."""
        return replace(self, position=position)

    def query(self) -> str:
        """The command that the publisher is sent."""
        return f"{self.before}{position_text(self.position)}{self.options}"


def start_of(query: str, tokens: Sequence[Token], in_version_1: bool) -> Start | None:
    """Returns the start that a query requests, if any. It is rewritten to protocol version 1 if that is wanted and its
    options can be read."""
    if len(tokens) < HEAD or [tokens[at].text for at in (0, 1, 3)] != ["start_replication", "slot", "logical"]:
        return None
    position = position_of(tokens[4:HEAD])
    if not tokens[2].is_name() or position is None:
        return None
    options = options_of(tokens[HEAD:])
    written = query[tokens[HEAD - 1].end:].rstrip()
    if options is not None and in_version_1:
        written = f" ({', '.join(written_options(query, options))})"
    named = dict((name.text.lower(), value.text) for name, value in options or [] if value is not None)
    publications = frozenset(names_of(named.get("publication_names", "")))
    return Start(tokens[2].text, position, query[tokens[0].begin:tokens[4].begin], written, publications)


def position_of(tokens: Sequence[Token]) -> int | None:
    """The position X/X that three tokens spell."""
    high, slash, low = tokens
    is_whole = slash.is_mark("/") and high.end == slash.begin and slash.end == low.begin
    if not is_whole or not is_hexadecimal(high) or not is_hexadecimal(low):
        return None
    return (int(high.text, 16) << 32) + int(low.text, 16)


def is_hexadecimal(token: Token) -> bool:
    """Returns whether a token is half of a position."""
    return token.kind is Kind.WORD and 1 <= len(token.text) <= 8 and set(token.text) <= set("0123456789abcdef")


def options_of(tokens: Sequence[Token]) -> list[Option] | None:
    """The names and values between parentheses, or None if they cannot be read."""
    if len(tokens) < 3 or not tokens[0].is_mark("(") or not tokens[-1].is_mark(")"):
        return None
    options: list[Option] = []
    at, end = 1, len(tokens) - 1
    while True:
        if at == end or not tokens[at].is_name():
            return None
        name, value = tokens[at], tokens[at + 1]
        has_value = value.kind is Kind.STRING
        options.append((name, value if has_value else None))
        at += 1 + has_value
        if at == end:
            return options
        if not tokens[at].is_mark(","):
            return None
        at += 1


def written_options(query: str, options: Sequence[Option]) -> list[str]:
    """The options of the same start in version 1, without those that only permit more."""
    written = []
    for name, value in options:
        word = name.text.lower()
        shown = query[name.begin:name.end]
        if word == "proto_version" and value is not None and value.text in LATER_VERSIONS:
            written.append(f"{shown} '1'")
        elif word not in PERMISSIONS:
            written.append(f"{shown} {query[value.begin:value.end]}" if value is not None else shown)
    return written


def names_of(listed: str) -> list[str]:
    """The names in a list, as in publication_names."""
    return [token.text for token in tokens_of(listed) if token.is_name()]
