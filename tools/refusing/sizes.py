"""Finds requests for memory whose size is chosen. A request of an absurd size is refused although memory is available.

Such requests are calls of library functions that take a size, and calls of the program's own functions that pass a
number on to one.
"""

import re
from collections import Counter
from collections.abc import Iterator
from functools import cache

from refusing.functions import INTEGERS, Function, Source
from refusing.places import Place, digest
from refusing.positions import Body

LIBRARY = {
    "with_capacity", "with_capacity_in", "reserve", "reserve_exact", "try_reserve", "try_reserve_exact", "resize",
    "resize_with", "try_resize_with", "zeroed", "repeat", "from_elem", "from_clones", "extend_with_clones", "allocate",
    "allocate_zeroed", "grow", "shrink", "new_uninit_slice", "extend_from_within", "collect", "from_iter", "extend",
    "Layout"}

REQUESTING = LIBRARY | {"vec"}
WORD = re.compile(r"\w+")

# The names of the program's own functions that pass a number on to a request. If several functions have a name, it is
# not followed.
Passing = frozenset[str]
Part = tuple[Source, Function]


@cache
def words_of(source: Source) -> dict[Function, frozenset[str]]:
    """Returns the words of each function of a file."""
    return {
        function: frozenset(token.text for token in source.tokens[function.begin:function.end])
        for function in source.functions}


def passing_in(parts: list[Part]) -> Passing:
    """Returns the program's own functions that pass a number on, found through the functions that they call."""
    words = [words_of(source)[function] for source, function in parts]
    names = Counter(called_name(function.name) for _, function in parts)
    found: set[str] = set()
    waiting = [part for part, own in zip(parts, words) if own & REQUESTING]
    while waiting:
        new = set()
        for source, function in waiting:
            name = called_name(function.name)
            if name not in found and names[name] == 1 and passes(source, function, frozenset(found)):
                new.add(name)
        found |= new
        last = {name.split("::")[-1] for name in new}
        waiting = [part for part, own in zip(parts, words) if own & last]
    return frozenset(found)


def passes(source: Source, function: Function, passing: Passing) -> bool:
    """Returns whether a function passes a number on."""
    return any(numbers_in(source, function, begin, end) for _, begin, end in requests(source, function, passing))


def called_name(name: str) -> str:
    """Returns how a function is called: with its type if its own name is a common one."""
    owner, _, own = name.rpartition("::")
    kind = owner.split("for ")[-1].split("<")[0]
    return f"{kind}::{own}" if own == "new" and kind else own


def requests(source: Source, function: Function, passing: Passing) -> Iterator[tuple[int, int, int]]:
    """Yields the place of each request's name, and the range of its arguments."""
    for at in range(function.begin, function.end):
        text = source.text(at)
        if text == "vec" and source.text(at + 1) == "!":
            begin, end = at + 3, source.partners[at + 2]
            marks = [it for it in range(begin, end) if source.text(it) == ";"]
            if len(marks) == 2:
                yield at, marks[1] + 1, end
        elif text in LIBRARY or text in passing or text == "new" and f"{source.text(at - 2)}::new" in passing:
            opened = at + 1
            if source.text(opened) == "::":
                opened = source.after(opened + 1, {"("}, function.end)
            if source.text(opened) == "(":
                yield at, opened + 1, source.partners[opened]


def numbers_in(source: Source, function: Function, begin: int, end: int) -> set[str]:
    """Returns the numeric parameters that a range names, directly or through variables."""
    found, seen, waiting = set(), set(), words_in(source, begin, end)
    while waiting:
        name = waiting.pop()
        if name in seen:
            continue
        seen.add(name)
        if function.is_number(name):
            found.add(name)
        for start, stop in definitions(source, function, name):
            waiting |= words_in(source, start, stop)
    return found


def words_in(source: Source, begin: int, end: int) -> set[str]:
    """Returns the lower-case names in a range that are not fields."""
    return {
        source.text(at) for at in range(begin, end)
        if source.tokens[at].is_word and source.text(at)[0].islower() and source.text(at - 1) != "."}


def definitions(source: Source, function: Function, name: str) -> list[tuple[int, int]]:
    """Returns the statements of a function that bind a name or assign to it."""
    found = []
    for at in range(function.begin, function.end):
        if source.text(at) != name or source.text(at - 1) == ".":
            continue
        start = at - 1 if source.text(at - 1) == "mut" else at
        is_bound = source.text(start - 1) == "let"
        is_assigned = source.text(at + 1) in ("=", "+=", "-=", "*=") and source.text(at - 1) in (";", "{", "}")
        if is_bound or is_assigned:
            found.append((start - 1 if is_bound else at, source.after(at, {";"}, function.end)))
    return found


def sized_places(source: Source, function: Function, passing: Passing, bodies: dict[str, str]) -> Iterator[Place]:
    """Yields the requests of a function. A request that names the greatest number of its type has no permitted form."""
    if not words_of(source)[function] & (REQUESTING | {name.split("::")[-1] for name in passing}):
        return
    body = Body(source, function)
    for at, begin, end in requests(source, function, passing):
        lines = [source.written(body.path_begin(at), end + 1), *made_of(source, function, begin, end)]
        used = sorted({word for line in lines for word in WORD.findall(line)} & bodies.keys() - {source.text(at)})
        lines += [f"{name} {bodies[name]}" for name in used]
        form = "other" if any("::MAX" in line for line in lines) else "sized"
        yield Place(function.name, form, source.text(at), "; ".join(dict.fromkeys(lines)), source.tokens[at].line)


def made_of(source: Source, function: Function, begin: int, end: int) -> list[str]:
    """Returns the statements from which the numbers of a range come."""
    lines, seen, waiting = [], set(), sorted(words_in(source, begin, end))
    while waiting:
        name = waiting.pop(0)
        for start, stop in definitions(source, function, name) if name not in seen else []:
            lines.append(source.written(start, stop))
            waiting += sorted(words_in(source, start, stop))
        seen.add(name)
    return lines


def number_bodies(parts: list[Part]) -> dict[str, str]:
    """Returns a digest of each function that returns a number, by its name, if the name is unique."""
    names = Counter(function.name.rpartition("::")[2] for _, function in parts)
    return {
        name: digest(source, function) for source, function in parts
        if function.returns in INTEGERS and names[name := function.name.rpartition("::")[2]] == 1}
