"""Finds places where a value that means "refused" is created, and whether each has the form of a conversion."""

import hashlib
import re
from dataclasses import dataclass
from functools import cache

from refusing.functions import Function, Source
from refusing.positions import Arm, Body

# The values, by the last word of their path, and the texts of their lines.
WORDS = {
    "AllocError", "AllocFailed", "OutOfMemory", "Output", "Unread", "Failed", "WriteFault", "ReadFault", "SourceFailed",
    "Halted", '"out of memory"', '"out of memory\\n"', '"OutOfMemory"'}
# These create an error of a device.
MAKERS = {"from", "new", "other"}
# The types whose From may create such a value.
SOURCES = re.compile(r"From<(AllocError|AllocFailed<T>)>for ")
ANY_ERROR = re.compile(r"Err\((_|[a-z]\w*)\)$")
# The end of a path, where its arguments begin.
CALLED = re.compile(r"([A-Za-z_]\w*)(?:::<[^()]*>)?!?$")
OPERATORS = {"==", "!=", "<=", ">=", "&&", "||", "+", "*", "/", "%", "|", "^", "=", "as", "if", "match", "?", "!"}


@dataclass(frozen=True)
class Place:
    """A place: its function, its form, the call that is converted, and its text. The form "other" is not a
    conversion."""

    function: str
    form: str
    call: str
    text: str
    line: int = 0

    @property
    def key(self) -> tuple[str, str, str]:
        """Identifies a place, whichever crate and line it is in."""
        return self.function, self.form, self.text


@cache
def digest(source: Source, function: Function) -> str:
    """Returns a digest of the tokens of a whole body, so that any change of it is noticed."""
    whole = source.written(function.begin, function.end + 1)
    return hashlib.sha256(whole.encode()).hexdigest()[:16]


class Forms:
    """Finds the places in one function."""

    def __init__(self, source: Source, function: Function) -> None:
        self.source, self.function, self.body = source, function, Body(source, function)

    def places(self) -> list[Place]:
        """Returns all places in the function. A text that occurs several times is returned as often."""
        return [self.place(at) for at in range(self.function.begin, self.function.end) if self.creates(at)]

    def creates(self, at: int) -> bool:
        """Returns whether the token at a place creates a value."""
        text = self.source.text(at)
        if text == "Error" and self.source.text(at + 1) == "::" and self.source.text(at + 2) in MAKERS:
            return True
        if text not in WORDS or self.source.text(at + 1) == "::":
            return False
        if self.source.text(at - 1) == "." or self.source.text(at + 1) == ":":
            return False
        return not (self.body.is_pattern(at) or self.body.is_type(at) or self.body.is_compared(at))

    def place(self, at: int) -> Place:
        """Returns the place at a token, with its form."""
        begin, end = self.expression(self.body.path_begin(at), at + 1)
        form, call, text = self.in_closure(begin, end) or self.in_arm(begin, end) or self.in_block(begin, end) or (
            "other", "", digest(self.source, self.function))
        return Place(self.function.name, form, call, text, self.source.tokens[at].line)

    def expression(self, begin: int, end: int) -> tuple[int, int]:
        """Returns the largest expression that only wraps the value: constructors, tuples, records, functions and
        `return`."""
        while (wider := self.wrapped(begin, end)) is not None:
            begin, end = wider
        return begin, end

    def wrapped(self, begin: int, end: int) -> tuple[int, int] | None:
        """Returns the next wrapper around an expression, if there is one."""
        source = self.source
        if source.text(end) == "(" and source.text(end - 1) in MAKERS | {"Error"} or source.text(end) == "::":
            stop = end + 2 if source.text(end) == "::" else source.partners[end] + 1
            return begin, stop
        if source.text(end) in ("?",) or source.text(end) == "as":
            return begin, end + (1 if source.text(end) == "?" else 2)
        if source.text(begin - 1) == "return":
            return begin - 1, end
        opened = self.opened(begin)
        if opened is None or source.text(begin - 1) not in ("(", ",", ":") or source.text(end) not in (")", ",", "}"):
            return None
        if source.text(opened) == "{":
            is_record = source.text(begin - 1) == ":" and source.text(opened - 1)[:1].isupper()
            return (self.body.path_begin(opened - 1), source.partners[opened] + 1) if is_record else None
        return self.called(opened)

    def called(self, opened: int) -> tuple[int, int] | None:
        """Returns the call or the tuple whose parentheses open at a place, unless it is a method call other than a
        writer's."""
        source, before = self.source, self.source.text(opened - 1)
        stop = source.partners[opened] + 1
        if before == "!" and source.text(opened - 2)[:1].isalpha():
            return opened - 2, stop
        if before[:1].isalpha() or before == "_":
            if before in ("return", "in", "if", "match"):
                return opened, stop
            begin = self.body.path_begin(opened - 1)
            if source.text(begin - 1) == ".":
                is_writer = before == "push_str" and source.text(begin - 3) not in (")", ".")
                return (begin - 2, stop) if is_writer else None
            return begin, stop
        return opened, stop

    def opened(self, at: int) -> int | None:
        """Returns the bracket that encloses a place within the function."""
        at -= 1
        while at >= self.function.begin:
            if self.source.text(at) in "([{":
                return at
            at = self.source.partners[at] - 1 if self.source.text(at) in ")]}" else at - 1
        return None

    def in_closure(self, begin: int, end: int) -> tuple[str, str, str] | None:
        """A closure, or the value's own constructor, that is passed to map_err directly on a call."""
        source = self.source
        if source.text(end) != ")":
            return None
        opened = source.partners[end]
        between = source.written(opened + 1, begin)
        if source.text(opened - 1) != "map_err" or not re.fullmatch(r"(\|\w+(: \w+)?\|)?", between):
            return None
        stop = opened - 2
        start = self.receiver(stop)
        name = self.call_in(start, stop)
        return None if name is None else ("map_err", name, source.written(start, end + 1))

    def receiver(self, stop: int) -> int:
        """Returns the beginning of the expression that ends before the dot at a place."""
        source, at = self.source, stop - 1
        while at > self.function.begin:
            if source.text(at) in ")]":
                at = source.partners[at]
            elif not (source.tokens[at].is_word or source.text(at) in (".", "::")) or source.text(at) in (
                    "return", "let", "match", "if", "in"):
                return at + 1
            at -= 1
        return at + 1

    def call_in(self, begin: int, end: int) -> str | None:
        """Returns the name of the called function, if a range is a call and nothing else."""
        source = self.source
        if source.text(end - 1) not in (")", "]"):
            return None
        opened = source.partners[end - 1]
        at = begin
        while at < end:
            if source.text(at) in OPERATORS and not (source.text(at) == "!" and source.text(at + 1) in ("(", "[")):
                return None
            at = source.partners[at] + 1 if source.text(at) in "([{" else at + 1
        named = CALLED.search(source.written(begin, opened))
        return named[1] if named else None

    def in_arm(self, begin: int, end: int) -> tuple[str, str, str] | None:
        """The body of an arm, or the whole or the last statement of its block."""
        for arm in self.body.arms:
            if begin == arm.body[0] and end == arm.body[1]:
                return self.arm(arm)
            if self.source.text(arm.body[0]) == "{" and self.opened(begin) == arm.body[0]:
                return self.arm(arm) if self.is_statement(begin, end) else None
        return None

    def is_statement(self, begin: int, end: int) -> bool:
        """Returns whether an expression is a statement of its own, or the value that a statement assigns."""
        before = self.source.text(begin - 1)
        if before == "=":
            start = begin - 1
            while self.source.text(start - 1) not in (";", "{", "}"):
                start -= 1
            return self.source.text(start) not in ("let", "const", "static")
        return before in ("{", ";", "}") and self.source.text(end) in (";", "}")

    def arm(self, arm: Arm) -> tuple[str, str, str] | None:
        """An arm that matches only refusals, or any error of a call."""
        source = self.source
        bare = self.body.without_guard(arm.pattern)
        guard = source.written(bare[1], arm.pattern[1])
        text = f"match {source.written(*arm.matched)}: {source.written(*arm.pattern)} => {source.written(*arm.body)}"
        parts = self.alternatives(bare)
        if all(self.names_refusal(part) for part in parts):
            return "passed on", source.written(*arm.matched), text
        name = self.call_in(*arm.matched)
        is_any = all(ANY_ERROR.match(source.written(*part)) for part in parts)
        if name is None or not is_any or guard and not re.search(r"== ([A-Z]\w*::)*OutOfMemory$", guard):
            return None
        return "arm", name, text

    def alternatives(self, pattern: tuple[int, int]) -> list[tuple[int, int]]:
        """Returns the alternatives of a pattern."""
        found, at = [], pattern[0]
        while at < pattern[1]:
            bar = self.source.after(at, {"|"}, pattern[1])
            found.append((at, bar))
            at = bar + 1
        return [part for part in found if part[0] < part[1]]

    def names_refusal(self, part: tuple[int, int]) -> bool:
        """Returns whether a pattern matches only refusals."""
        return re.fullmatch(
            r"(?:[\w:]+\()*(?:\w+::)+(?:OutOfMemory|Output|Unread|Failed|SourceFailed|WriteFault|ReadFault)\)*",
            self.source.written(*part)) is not None

    def in_block(self, begin: int, end: int) -> tuple[str, str, str] | None:
        """The block of an `if` or a `let .. else` on a call, or the body of a From."""
        opened = self.opened(begin)
        if opened is None or not self.is_statement(begin, end):
            return None
        if opened == self.function.begin:
            is_from = SOURCES.match(self.function.name) and self.function.end == end
            return ("From", "", self.source.written(begin, end)) if is_from and begin == opened + 1 else None
        if self.source.text(opened - 1) == "else":
            return self.let_else(opened)
        return self.condition(opened)

    def head(self, opened: int, word: str) -> int | None:
        """Returns the beginning of the statement whose block opens at a place, if it begins with this word."""
        at = opened - 1
        while at > self.function.begin and self.source.text(at) not in (";", "{", "}"):
            at = self.source.partners[at] if self.source.text(at) in ")]" else at
            at -= 1
        return at + 1 if self.source.text(at + 1) == word else None

    def let_else(self, opened: int) -> tuple[str, str, str] | None:
        """`let Ok(..) = call else { .. }`."""
        start = self.head(opened, "let")
        if start is None:
            return None
        equal = self.source.after(start, {"="}, opened)
        name = self.call_in(equal + 1, opened - 1)
        is_ok = self.source.written(start + 1, equal).startswith("Ok(")
        text = self.source.written(start, self.source.partners[opened] + 1)
        return ("else", name, text) if name and is_ok else None

    def condition(self, opened: int) -> tuple[str, str, str] | None:
        """`if call.is_err() { .. }`, or `if let Err(..) = call { .. }`."""
        start = self.head(opened, "if")
        if start is None or self.source.text(start - 1) == "else":
            return None
        text = self.source.written(start, self.source.partners[opened] + 1)
        if self.source.text(start + 1) == "let":
            equal = self.source.after(start, {"="}, opened)
            pattern = (start + 2, equal)
            if all(self.names_refusal(part) for part in self.alternatives(pattern)):
                return "passed on", self.source.written(equal + 1, opened), text
            name = self.call_in(equal + 1, opened)
            return ("if let", name, text) if name and ANY_ERROR.match(self.source.written(*pattern)) else None
        if self.source.written(opened - 4, opened) != ".is_err()":
            return None
        name = self.call_in(start + 1, opened - 4)
        return ("is_err", name, text) if name else None
