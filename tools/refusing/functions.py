"""The functions of a source file, and what is outside of them."""

from dataclasses import dataclass
from functools import cache

from refusing.tokens import Token, partners_of, tokens_of, written

INTEGERS = {
    "u8", "u16", "u32", "u64", "u128", "usize", "i8", "i16", "i32", "i64", "i128", "isize",
    # the project's own names for such types
    "CommitNumber", "SlotNumber", "SubscriberNumber", "TableNumber",
}


@dataclass(frozen=True)
class Function:
    """A function: its name with that of its type, its parameters in order with their types, its return type, and where
    its body begins and ends."""

    name: str
    parameters: tuple[tuple[str, str], ...]
    returns: str
    begin: int
    end: int

    def is_number(self, name: str) -> bool:
        """Returns whether a name is a parameter that is a number."""
        return any(name == own and kind in INTEGERS for own, kind in self.parameters)

    def place_of(self, name: str) -> int:
        """Returns the position of a parameter among the arguments, without self."""
        return [own for own, _ in self.parameters if own != "self"].index(name)


class Source:
    """A source file, split into functions."""

    def __init__(self, text: str) -> None:
        self.tokens = tokens_of(text)
        self.partners = partners_of(self.tokens)
        self.functions: list[Function] = []
        self.walk(0, len(self.tokens), "")

    def text(self, at: int) -> str:
        """Returns the text of a token, or nothing if there is none."""
        return self.tokens[at].text if 0 <= at < len(self.tokens) else ""

    def written(self, begin: int, end: int) -> str:
        """Returns the tokens of a range as one line."""
        return written(self.tokens[begin:end])

    def after(self, at: int, marks: set[str], end: int) -> int:
        """Returns the next place of one of these marks outside of brackets."""
        while at < end and self.text(at) not in marks:
            at = self.partners.get(at, at) + 1 if self.text(at) in "([{" else at + 1
        return at

    def walk(self, at: int, end: int, owner: str) -> None:
        """Collects the functions of a range, whose type is named before its braces."""
        while at < end:
            word = self.text(at)
            if word == "fn":
                at = self.function(at, end, owner)
            elif word in ("impl", "trait") and (at == 0 or self.text(at - 1) in ("}", ";", "]", "pub", ")", "unsafe")):
                begin = self.after(at, {"{", ";"}, end)
                if self.text(begin) == "{":
                    self.walk(begin + 1, self.partners[begin], header(self.tokens[at:begin]))
                    begin = self.partners[begin]
                at = begin + 1
            else:
                at += 1

    def function(self, at: int, end: int, owner: str) -> int:
        """Collects a function, and returns the place after it."""
        name = self.text(at + 1)
        opened = self.after(at, {"("}, end) if self.text(at + 2) == "(" else self.parameters_at(at + 2, end)
        closed = self.partners[opened]
        begin = self.after(closed + 1, {"{", ";"}, end)
        if self.text(begin) != "{":
            return begin + 1
        returns = self.written(closed + 1, begin).split("->", 1)
        self.functions.append(Function(
            f"{owner}::{name}" if owner else name, tuple(self.parameters(opened + 1, closed)),
            returns[1].strip() if len(returns) == 2 else "", begin, self.partners[begin]))
        return self.partners[begin] + 1

    def parameters_at(self, at: int, end: int) -> int:
        """Returns where parameters begin, after type parameters."""
        depth = 0
        while at < end:
            depth += {"<": 1, ">": -1}.get(self.text(at), 0)
            at += 1
            if depth == 0 and self.text(at) == "(":
                return at
        return at

    def parameters(self, at: int, end: int) -> list[tuple[str, str]]:
        """Returns the names and the types of parameters."""
        found = []
        while at < end:
            comma = self.comma(at, end)
            colon = next((it for it in range(at, comma) if self.text(it) == ":"), None)
            if colon is not None:
                found.append((self.text(colon - 1), self.written(colon + 1, comma)))
            at = comma + 1
        return found

    def comma(self, at: int, end: int) -> int:
        """Returns the next comma outside of brackets, including the angle brackets of types."""
        angles = 0
        while at < end:
            text = self.text(at)
            if text == "," and angles <= 0:
                return at
            angles += {"<": 1, ">": -1}.get(text, 0)
            at = self.partners.get(at, at) + 1 if text in "([{" else at + 1
        return end


def header(tokens: list[Token]) -> str:
    """Returns the name of an impl or a trait, without the type parameters that follow `impl`."""
    text = written(tokens)
    word, rest = text.split(maxsplit=1) if text.startswith("trait") else ("impl", text[4:])
    if rest.startswith("<"):
        depth = 0
        for at, mark in enumerate(rest):
            depth += {"<": 1, ">": -1}.get(mark, 0) if rest[at - 1:at + 1] != "->" else 0
            if depth == 0:
                rest = rest[at + 1:]
                break
    return rest.split(" where ")[0].split(":")[0].strip() if word == "trait" else rest.split(" where ")[0].strip()


@cache
def source_of(text: str) -> Source:
    """Returns the functions of a source file, which is parsed only once."""
    return Source(text)
