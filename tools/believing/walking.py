"""Finds what has to be read for a theorem: the places, and their files in reading order."""

from dataclasses import replace
from functools import cache

from believing.code import Item
from believing.library import Place, found_at, lines_of, used_by, used_in_code
from believing.theorems import Ensured, Theorem


def places(theorem: Theorem) -> list[Place]:
    """Returns everything that has to be read for a theorem, each place after what it uses."""
    found, seen = [], set()

    def visit(place: Place) -> None:
        if place in seen or place.name in theorem.tokens:
            return
        seen.add(place)
        for used in used_by(place):
            visit(used)
        found.append(place)

    for place in [*theorem.traits, *theorem.said]:
        visit(place)
    return found


def not_read(theorem: Theorem) -> list[Place]:
    """Returns the places that are reached and need not be read."""
    return list(dict.fromkeys(
        used for place in places(theorem) for used in used_by(place) if used.name in theorem.tokens))


def check_tokens(theorem: Theorem) -> None:
    """Fails if a clause does not ensure a name that is not read since that clause ensures it."""
    met = {place.name: place for place in not_read(theorem)}
    for name, why in theorem.tokens.items():
        if isinstance(why, Ensured) and name in met:
            check_ensured(met[name], why)


def check_ensured(token: Place, why: Ensured) -> None:
    """Fails if one of the clauses does not ensure the name, or its parts, if it is defined by parts."""
    each = [replace(place, clauses=(label,)) for place in why.by for label in place.clauses or ()]
    for place in each + [place for place in why.by if not place.clauses]:
        if not ensured_by(place) & set(why.parts or [token.name]):
            clause = " ".join([place.name, *(place.clauses or ())])
            raise LookupError(f"{place.file}: {clause} does not ensure {token.name}")
    for part in why.parts:
        if not any(part in ensured_by(place) for place in why.by):
            raise LookupError(f"{why.by[0].file}: {why.by[0].name} does not ensure {part}")
        if part not in {it.name for it in used_by(token)}:
            raise LookupError(f"{token.file}: {token.name} is not defined by {part}")


@cache
def ensured_by(place: Place) -> set[str]:
    """Returns the names in the clauses of a contract, and those in their definitions."""
    found = found_at(place)
    assert isinstance(found, Item)
    own = [it for it in used_in_code(place, replace(found, types=[], names=found.ensured)) if it is not None]
    return {it.name for it in own} | {it.name for its in own for it in used_by(its)}


def by_files(found: list[Place]) -> dict[str, list[Place]]:
    """Groups places by file. Each file comes after those that it uses, if possible."""
    files: dict[str, list[Place]] = {}
    for place in found:
        files.setdefault(place.file, []).append(place)
    order, seen, listed = [], set(), set(found)

    def visit(file: str) -> None:
        if file in seen:
            return
        seen.add(file)
        for place in files[file]:
            for used in used_by(place):
                if used in listed:
                    visit(used.file)
        order.append(file)

    for file in files:
        visit(file)
    return {file: files[file] for file in order}


def count(found: list[Place]) -> tuple[int, int]:
    """Returns how many lines have to be read, without comments and with them."""
    lines = [line.strip() for place in found for line in lines_of(place)]
    return sum(not line.startswith(("--", "//")) for line in lines), len(lines)
