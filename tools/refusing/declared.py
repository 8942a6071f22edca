"""Finds what may hide that a refusal is created: other names for it, constants, defaults, macros, and numeric
statuses."""

import re
from collections.abc import Iterator

from refusing.functions import Function, Source
from refusing.places import WORDS, Place, digest

# Creates a value of any type from nothing.
UNSAFE = {"transmute", "unsafe", "zeroed", "MaybeUninit", "from_raw", "macro_rules", "assume_init", "uninit"}
NAMES = {word for word in WORDS if word[0] != '"'}


def declared_places(source: Source) -> Iterator[Place]:
    """Yields what is outside of functions, or hides a value anywhere."""
    bodies = [range(it.begin, it.end) for it in source.functions]
    for at, token in enumerate(source.tokens):
        text = token.text
        if text in UNSAFE:
            yield Place("", "other", "", f"the word {text}", token.line)
        if text == "use" and (hidden := other_name(source, at)):
            yield Place("", "other", "", f"another name, {hidden}", token.line)
        if text in ("const", "static", "type") and not source.text(at - 1) in ("*", "'") and (
                hidden := named_by(source, at)):
            yield Place("", "other", "", f"another name, {hidden}", token.line)
        if text == "default" and source.text(at - 1) == "[" and source.text(at + 2) in NAMES:
            yield Place("", "other", "", f"a default, {source.text(at + 2)}", token.line)
        if text == "derive" and (hidden := default_of(source, at)):
            yield Place("", "other", "", f"a default, {hidden}", token.line)
        if text in NAMES and source.text(at - 1) == "=" and not any(at in body for body in bodies):
            yield Place("", "other", "", f"a constant, {text}", token.line)


def other_name(source: Source, at: int) -> str:
    """Returns an import that gives a refusal another name."""
    end = source.after(at, {";"}, len(source.tokens))
    renamed = [it for it in range(at, end) if source.text(it) == "as" and source.text(it - 1) in NAMES]
    return source.written(renamed[0] - 1, renamed[0] + 2) if renamed else ""


def named_by(source: Source, at: int) -> str:
    """Returns a constant or a type alias that is a refusal, or whose value contains one."""
    end = source.after(at, {";"}, len(source.tokens))
    equal = source.after(at, {"="}, end)
    is_named = any(source.text(it) in NAMES for it in range(at, end))
    return source.written(at, end) if equal < end and is_named else ""


def default_of(source: Source, at: int) -> str:
    """Returns a type whose default is a refusal."""
    closed = source.partners[at + 1]
    traits = [source.text(it) for it in range(at + 2, closed)]
    start = closed + 2
    while source.text(start) in ("pub", "(", "crate", ")"):
        start += 1
    name = source.text(start + 1)
    return name if "Default" in traits and source.text(start) == "struct" and name in NAMES else ""


def status_places(source: Source, function: Function) -> Iterator[Place]:
    """Yields functions that return a numeric status, any of whose bodies may be a refusal."""
    whole = source.written(function.begin, function.end + 1)
    is_number = function.returns in ("u8", "ExitCode") or "ExitCode" in whole
    if is_number and re.search("[Ss]tatus|ExitCode|report", whole):
        yield Place(function.name, "other", "", digest(source, function), source.tokens[function.begin].line)
