"""The list of places, which is reviewed, and its comparison with the sources."""

import re
from collections import Counter
from collections.abc import Mapping
from dataclasses import dataclass, field
from functools import cache
from pathlib import Path

from refusing.declared import declared_places, status_places
from refusing.functions import Source, source_of
from refusing.places import Forms, Place, digest
from refusing.sizes import number_bodies, passing_in, sized_places

ROOT = Path(__file__).resolve().parent.parent.parent
CRATES = ROOT / "crates"
LIST = ROOT / "tools" / "testing" / "refusals_made.txt"

# The tests, and the program that makes calls without memory, are not part of what is proved.
LEFT_OUT = re.compile(r"\w+_tests$|refused_calls$")

HEAD = """\
# Places where the program creates a value that reports that memory or a device was refused, by file and function.
# tools/refusals_made compares the list with the sources, and --write rewrites it; see docs/CONTRIBUTING.md.
#
#   passed on [value] text   a refusal becomes another one
#   From text                the conversion of an AllocError
#   arm, else, if let, is_err, map_err [call] text
#                            the error of this call
#   sized [call] text        a request whose size is chosen
#   other [functions] digest: reason
#                            none of these: a person has reviewed the body, and those of the functions in brackets
"""
ENTRY = re.compile(r"    (passed on|From|arm|else|if let|is_err|map_err|sized|other)(?: \[(.*?)\])? (.*)$")
UNREAD = "?"

Texts = Mapping[str, str]


@dataclass
class Found:
    """The places in the sources with their files, and the digest of each function's body by name."""

    places: list[tuple[str, Place]] = field(default_factory=list)
    digests: dict[str, str] = field(default_factory=dict)


@dataclass(frozen=True)
class Entry:
    """A line of the list."""

    file: str
    function: str
    form: str
    call: str
    text: str

    @property
    def key(self) -> tuple[str, str, str]:
        """What is compared. The file is left out, so that a function may move to another one."""
        return self.function, self.form, self.text.split(": ")[0] if self.form == "other" else self.text

    @property
    def reason(self) -> str:
        """Why a place of another form is right."""
        return self.text.partition(": ")[2]


def sources() -> dict[str, str]:
    """Returns the text of each source file of the program."""
    files = (path for path in sorted(CRATES.glob("*/src/**/*.rt")) if not LEFT_OUT.match(crate_of(path)))
    return {str(path.relative_to(CRATES)): path.read_text(encoding="utf-8") for path in files}


def crate_of(path: Path) -> str:
    """Returns the crate of a file."""
    return path.relative_to(CRATES).parts[0]


def found_in(texts: Texts) -> Found:
    """Returns all places in some files."""
    found, files = Found(), {name: source_of(text) for name, text in texts.items()}
    parts = [(source, function) for source in files.values() for function in source.functions]
    passing, bodies = passing_in(parts), number_bodies(parts)
    for name, source in files.items():
        own = [*alone_in(source)]
        for function in source.functions:
            own += sized_places(source, function, passing, bodies)
        found.places += [(name, place) for place in own]
        found.digests |= digests_in(source)
    return found


@cache
def alone_in(source: Source) -> tuple[Place, ...]:
    """Returns the places in a file that can be found without other files."""
    own = [*declared_places(source)]
    for function in source.functions:
        own += [*Forms(source, function).places(), *status_places(source, function)]
    return tuple(own)


@cache
def digests_in(source: Source) -> dict[str, str]:
    """Returns the digest of each function of a file, by its own name."""
    return {function.name.rpartition("::")[2]: digest(source, function) for function in source.functions}


def read_list(text: str) -> list[Entry]:
    """Returns the lines of a list."""
    found, file, function = [], "", ""
    for line in text.splitlines():
        if line.startswith("#") or not line.strip():
            continue
        match = ENTRY.match(line)
        if match is not None:
            found.append(Entry(file, function, match[1], match[2] or "", match[3]))
        elif line.startswith("  "):
            function = line.strip().removesuffix(":") if line.strip() != "(outside of functions)" else ""
        else:
            file = line.strip()
    return found


def entry_of(file: str, place: Place, entries: list[Entry], digests: dict[str, str]) -> Entry:
    """Returns the line for a place. A place of another form keeps its reason if nothing about it has changed."""
    if place.form != "other":
        return Entry(file, place.function, place.form, place.call, place.text)
    before = [it for it in entries if it.form == "other" and it.function == place.function]
    carriers = ", ".join(names_of(before[0])) if before else ""
    text = pinned(place.text, carriers, digests)
    same = [it for it in before if it.key[2] == text]
    return Entry(file, place.function, "other", carriers, f"{text}: {same[0].reason if same else UNREAD}")


def names_of(entry: Entry) -> list[str]:
    """Returns the functions that an entry of another form names besides its own."""
    return [name.strip() for name in entry.call.split(",") if name.strip()]


def pinned(text: str, carriers: str, digests: dict[str, str]) -> str:
    """Returns the text of a place of another form, with the digests of the functions that pass its refusal on."""
    return " ".join([text, *(digests.get(name.strip(), "gone") for name in carriers.split(",") if name.strip())])


def faults(found: Found, entries: list[Entry]) -> list[str]:
    """Returns what is wrong: places that are not listed, places of another form that nobody has reviewed, and lines
    without a place."""
    lines = []
    made = [(place, entry_of(file, place, entries, found.digests)) for file, place in found.places]
    left = Counter(entry.key for entry in entries)
    for place, entry in made:
        where = f"crates/{entry.file}:{place.line}: {entry.function or 'outside of functions'}"
        if left[entry.key] == 0:
            what = "is no conversion of a refusal" if entry.form == "other" else "is not listed"
            lines.append(f"{where}: {what}: {entry.form} {entry.text.removesuffix(': ?')}")
        left[entry.key] -= 1
    for entry in entries:
        if entry.form == "other" and entry.reason in ("", UNREAD):
            lines.append(f"crates/{entry.file}: {entry.function}: the list has no reason")
    gone = [key for key, count in left.items() if count > 0]
    return lines + [f"{function}: is listed, and not in the sources: {form} {text}" for function, form, text in gone]


def written_list(found: Found, entries: list[Entry]) -> str:
    """Returns the list of these places."""
    lines, file, function = [HEAD], "", None
    for name, place in sorted(found.places, key=lambda it: (it[0], it[1].line)):
        entry = entry_of(name, place, entries, found.digests)
        if entry.file != file:
            lines.append(f"\n{entry.file}\n")
            file, function = entry.file, None
        if entry.function != function:
            lines.append(f"  {entry.function or '(outside of functions)'}\n")
            function = entry.function
        call = f" [{entry.call}]" if entry.call else ""
        lines.append(f"    {entry.form}{call} {entry.text}\n")
    return "".join(lines)
