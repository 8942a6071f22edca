"""Finds where a word in a function's body is a pattern, a type or one side of a comparison, and thus creates
nothing."""

from dataclasses import dataclass
from functools import cached_property

from refusing.functions import Function, Source


@dataclass(frozen=True)
class Arm:
    """An arm of a match: what is matched, the pattern with its guard, and the body, each with its beginning and end."""

    matched: tuple[int, int]
    pattern: tuple[int, int]
    body: tuple[int, int]


class Body:
    """The body of a function, with its arms and patterns."""

    def __init__(self, source: Source, function: Function) -> None:
        self.source, self.function = source, function
        self.begin, self.end = function.begin, function.end + 1

    def places_of(self, word: str) -> list[int]:
        """Returns where a word occurs."""
        return [at for at in range(self.begin, self.end) if self.source.text(at) == word]

    @cached_property
    def arms(self) -> list[Arm]:
        """Returns the arms of all matches."""
        found = []
        for at in self.places_of("match"):
            opened = self.source.after(at + 1, {"{"}, self.end)
            found.extend(self.arms_in((at + 1, opened), opened + 1, self.source.partners[opened]))
        return found

    def arms_in(self, matched: tuple[int, int], at: int, end: int) -> list[Arm]:
        """Returns the arms of one match."""
        found = []
        while at < end:
            arrow = self.source.after(at, {"=>"}, end)
            if self.source.text(arrow + 1) == "{":
                stop = self.source.partners[arrow + 1] + 1
            else:
                stop = self.source.after(arrow + 1, {","}, end)
            found.append(Arm(matched, (at, arrow), (arrow + 1, stop)))
            at = stop + 1 if self.source.text(stop) == "," else stop
        return found

    @cached_property
    def patterns(self) -> list[tuple[int, int]]:
        """Returns the ranges of patterns: those of arms, of `let`, and of `matches!`."""
        found = [self.without_guard(arm.pattern) for arm in self.arms]
        for at in self.places_of("let"):
            found.append((at + 1, self.source.after(at + 1, {"=", ";"}, self.end)))
        for at in self.places_of("matches"):
            if self.source.text(at + 1) == "!":
                comma = self.source.comma(at + 3, self.source.partners[at + 2])
                found.append((comma, self.source.partners[at + 2]))
        return found

    def without_guard(self, pattern: tuple[int, int]) -> tuple[int, int]:
        """Returns the part of an arm's pattern before `if`."""
        return pattern[0], self.source.after(pattern[0], {"if"}, pattern[1])

    def is_pattern(self, at: int) -> bool:
        """Returns whether a place is in a pattern."""
        return any(begin <= at < end for begin, end in self.patterns)

    def is_type(self, at: int) -> bool:
        """Returns whether the word at a place is a type: in angle brackets, or after the colon of a binding."""
        before, after = self.source.text(at - 1), self.source.text(at + 1)
        return after == ">" and before in ("<", ",") or before == "<" or before == ":" and after in ("=", "|")

    def path_begin(self, at: int) -> int:
        """Returns the beginning of the path that ends with the word at a place."""
        while self.source.text(at - 1) == "::" and at > self.begin:
            at -= 2
            if self.source.text(at) == ">":
                while self.source.text(at) != "<":
                    at -= 1
        return at

    def is_compared(self, at: int) -> bool:
        """Returns whether the word at a place is one side of == or !=, alone or in a constructor."""
        begin, end = self.path_begin(at), at + 1
        while self.source.text(begin - 1) == "(" and self.source.text(end) == ")" and (
                self.source.text(begin - 2)[:1].isupper()):
            begin, end = self.path_begin(begin - 2), end + 1
        return self.source.text(begin - 1) in ("==", "!=") or self.source.text(end) in ("==", "!=")
