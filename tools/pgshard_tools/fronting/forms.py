"""Forms of queries. A client's query is compared with them token by token."""

from collections.abc import Callable, Sequence

from pgshard_tools.fronting.tokens import Kind, Token, tokens_of

# The tokens of a query at the placeholders of a form, by name.
Found = dict[str, list[str]]
# How many of the next tokens fill a placeholder, and what they contain; None if they do not fit.
Reading = tuple[int, list[str]] | None


def one_name(tokens: Sequence[Token]) -> Reading:
    """A name, quoted or not."""
    return (1, [tokens[0].text]) if tokens and tokens[0].is_name() else None


def one_string(tokens: Sequence[Token]) -> Reading:
    """A string."""
    return (1, [tokens[0].text]) if tokens and tokens[0].kind is Kind.STRING else None


def strings(tokens: Sequence[Token]) -> Reading:
    """Strings separated by commas."""
    found = []
    for at in range(0, len(tokens), 2):
        if tokens[at].kind is not Kind.STRING:
            return None
        found.append(tokens[at].text)
        if at + 1 == len(tokens) or not tokens[at + 1].is_mark(","):
            return at + 1, found
    return None


def number(tokens: Sequence[Token]) -> Reading:
    """A number in the range of OIDs."""
    if tokens and tokens[0].kind is Kind.WORD and tokens[0].text.isdecimal() and len(tokens[0].text) <= 10:
        return 1, [tokens[0].text]
    return None


def rest(tokens: Sequence[Token]) -> Reading:
    """All remaining tokens, if any."""
    return len(tokens), [token.text for token in tokens]


PLACES: dict[str, Callable[[Sequence[Token]], Reading]] = {
    "$name": one_name, "$schema": one_name, "$table": one_name, "$namespace": one_string, "$relation": one_string,
    "$names": strings, "$oid": number, "$again": number, "$rest": rest}


class Form:
    """The words of a query, with `$` before the parts that vary."""

    def __init__(self, words: str) -> None:
        self.tokens = tokens_of(words)

    def match(self, tokens: Sequence[Token]) -> Found | None:
        """Returns the variable parts of a query of this form, or None if it has another form."""
        found: Found = {}
        at = 0
        for wanted in self.tokens:
            if wanted.text in PLACES:
                reading = PLACES[wanted.text](tokens[at:])
                if reading is None:
                    return None
                found[wanted.text] = reading[1]
                at += reading[0]
            elif at < len(tokens) and is_same(tokens[at], wanted):
                at += 1
            else:
                return None
        return found if at == len(tokens) else None


def is_same(token: Token, wanted: Token) -> bool:
    """Returns whether a token matches that of the form. A keyword must not be quoted."""
    return token.kind is wanted.kind and token.text == wanted.text
