"""Computes the parts of docs/READING.md that are between marks. The rest of the page, and each file's sentence, is
written by hand."""

import re

from believing import definitions
from believing.code import Item
from believing.library import ROOT, Place, found_at, lines_of
from believing.theorems import THEOREMS, Ensured, Theorem
from believing.walking import by_files, check_tokens, count, places

PAGE = ROOT / "docs" / "READING.md"
PART = re.compile(r"<!-- computed: (\w+) -->\n(.*?)<!-- end -->\n", re.S)
ROW = re.compile(r"\| `([^`]+)` \| .*? \| (.*) \|")


def computed(text: str) -> str:
    """Returns the page with its computed parts up to date."""
    sentences = dict(ROW.findall(text))
    parts = parts_of(sentences)
    return PART.sub(lambda match: f"<!-- computed: {match[1]} -->\n{parts[match[1]]}<!-- end -->\n", text)


def parts_of(sentences: dict[str, str]) -> dict[str, str]:
    """Returns the computed part of each theorem. What an earlier theorem has already listed is named, but not listed
    again."""
    parts, before = {}, set()
    for theorem in THEOREMS:
        found = places(theorem)
        check_tokens(theorem)
        parts[theorem.key] = part(theorem, found, before, sentences)
        before.update(found)
    return parts


def part(theorem: Theorem, found: list[Place], before: set[Place], sentences: dict[str, str]) -> str:
    """Returns where a theorem is stated, what has to be read for it, and which names need not be read."""
    lines = ["Said by:", ""]
    lines.extend(f"- {said_in(place)}" for place in theorem.said)
    bounded = f", at most {theorem.most:,}" if theorem.most else ""
    lines.extend(["", f"{count(found)[0]:,} lines are read for it, without comments{bounded}."])
    known = by_files([place for place in found if place in before])
    if known:
        lines.extend(["", f"Read above, whole or in part: {', '.join(f'`{file}`' for file in known)}."])
    lines.extend(["", "| File | Definitions | What it says |", "|---|---|---|"])
    for file, its in by_files([it for it in found if it not in before and it.clauses is None]).items():
        lines.append(f"| `{file}` | {names(its)} | {sentences.get(file) or sentence(its)} |")
    kept = [(it, its) for it in found if it not in before and it.clauses is None for its in premises(it)]
    if kept:
        lines.extend(["", "Premises that hold of each value of a type:", ""])
        lines.extend(f"- `{place.name}`: `{its}`" for place, its in kept)
    if theorem.tokens:
        lines.extend(["", "Not read, since their meaning does not matter here or is said elsewhere:", ""])
        lines.extend(f"- {', '.join(f'`{name}`' for name in its)}: {why}." for why, its in reasons(theorem).items())
    return "\n".join(lines) + "\n"


def said_in(place: Place) -> str:
    """Returns a contract's clauses and its file."""
    asked = " and ".join(f"`{its}`" for its in premises(place))
    return f"{call_of(place)} in `{place.file}`{f', which requires {asked}' if asked else ''}"


def call_of(place: Place) -> str:
    """Returns a contract's name and its clauses."""
    labels = ", ".join(f"`{label}`" for label in place.clauses or ())
    return f"`{place.name}`{f' ({labels})' if labels else ''}"


def premises(place: Place) -> list[str]:
    """Returns what a contract requires, or what holds of each value of a type."""
    found = found_at(place)
    return found.premises if isinstance(found, Item) else []


def names(its: list[Place]) -> str:
    """Returns the names of some places in a file."""
    return ", ".join(place.name for place in its)


def sentence(its: list[Place]) -> str:
    """Returns the first line of a file, for use until a sentence is written."""
    if its[0].path.suffix == ".antt":
        said = definitions.read(its[0].path).first_line
    else:
        said = " ".join(line.strip(" /!") for line in lines_of(its[0]) if line.strip().startswith("//")) or "types"
    return re.split(r": | \(\"|\. ", said)[0].rstrip(".")


def reasons(theorem: Theorem) -> dict[str, list[str]]:
    """Returns the names that need not be read, by reason. If clauses ensure them that are not the theorem's own, the
    reason says which, and what these calls require."""
    found: dict[str, list[str]] = {}
    own = {(place.path, place.name) for place in theorem.said}
    for name, why in theorem.tokens.items():
        others = [place for place in why.by if (place.path, place.name) not in own] if isinstance(why, Ensured) else []
        text = why.why if isinstance(why, Ensured) else why
        found.setdefault(text + seen_in(others), []).append(name)
    return found


def seen_in(contracts: list[Place]) -> str:
    """Returns the end of a reason that says where these contracts are, and what they require."""
    if not contracts:
        return ""
    *others, last = [call_of(place) for place in contracts]
    calls = f"{', '.join(others)} and {last}" if others else last
    files = " and ".join(dict.fromkeys(f"`{place.file}`" for place in contracts))
    asked = [
        f"`{place.name}` requires {' and '.join(f'`{its}`' for its in premises(place))}"
        for place in contracts if premises(place)]
    return "; ".join([f"; see {calls} in {files}", *asked])
