"""Finds where a name in a definition, a type or a contract comes from."""

from dataclasses import dataclass
from functools import cache
from pathlib import Path

from believing import code, definitions
from believing.definitions import Import

ROOT = Path(__file__).resolve().parent.parent.parent
CRATES = ROOT / "crates"

# What a source file can name without an import.
BUILT_IN = {
    "Option", "Some", "None", "Result", "Ok", "Err", "Vec", "Box", "String", "Self", "Drop", "Clone", "Copy", "Fn",
    "FnMut", "FnOnce", "Sync", "Send", "Sized", "AsRef", "Iterator"}


@dataclass(frozen=True)
class Place:
    """A definition, a type or a contract: its file, its name, and the clauses of a contract."""

    path: Path
    name: str
    clauses: tuple[str, ...] | None = None

    @property
    def file(self) -> str:
        """The file's name as it is printed."""
        return str(self.path.relative_to(CRATES))


def spec_file(crate: str, rest: list[str]) -> Path:
    """Returns a crate's file of definitions, given the parts of its name."""
    return CRATES.joinpath(crate, "specs", *rest).with_suffix(".antt")


@cache
def type_file(crate: str, name: str) -> Path | None:
    """Returns the file of a crate that contains the type or the trait of this name."""
    for path in sorted((CRATES / crate / "src").rglob("*.rt")):
        if code.item(path, name) is not None:
            return path
    return None


def declared(crate: str, rest: list[str]) -> Place | None:
    """Returns the type whose data are in `declared`, or whose laws are in `contracts`."""
    parts = [part for part in rest if part != "TheVariants"]
    path = type_file(crate, parts[-1])
    return None if path is None else Place(path, parts[-1])


def in_path(path: str, name: str) -> Place | None:
    """Returns what a library path has under this name, or None for the standard library."""
    crate, specs, *rest = path.split(".")
    if crate == "std" or specs != "specs" or not (CRATES / crate).is_dir():
        return None
    if rest[:1] in (["declared"], ["contracts"]):
        return declared(crate, rest[1:])
    file = spec_file(crate, rest)
    return in_file(file, name) if file.exists() else None


def in_file(file: Path, name: str) -> Place | None:
    """Returns what a file of definitions has under this name: its own definition, or one that it re-exports."""
    read = definitions.read(file)
    found = read.defined(name)
    if found is not None:
        return Place(file, found.name)
    return imported([it for it in read.imports if it.is_public], name)


def imported(imports: list[Import], word: str) -> Place | None:
    """Returns what a word means given some imports."""
    first, _, rest = word.partition(".")
    for it in imports:
        if it.alias == first and rest:
            return in_path(it.path, rest.split(".")[0])
        if first in it.names:
            return handed_on(it, first, rest)
        operator = next((here for here in it.names if definitions.is_operator(here, first)), None)
        if operator is not None:
            return in_path(it.path, it.names[operator])
    return None


def handed_on(it: Import, first: str, rest: str) -> Place | None:
    """Returns what an imported name means. It may be another file's name for a path."""
    name = it.names[first]
    found = in_path(it.path, name)
    if found is not None or not rest:
        return found
    crate, _, *parts = it.path.split(".")
    file = spec_file(crate, parts)
    if crate == "std" or not file.exists():
        return None
    return imported([its for its in definitions.read(file).imports if its.is_public], f"{name}.{rest}")


def lines_of(place: Place) -> list[str]:
    """Returns the lines that have to be read of a place, without empty ones."""
    return [line for line in found_at(place).lines if line.strip()]


@cache
def found_at(place: Place) -> code.Item | definitions.Definition:
    """Returns the definition, the type or the contract at a place."""
    if place.path.suffix == ".antt":
        return definitions.read(place.path).definitions[place.name]
    found = code.item(place.path, place.name) if place.clauses is None else (
        code.contract(place.path, place.name, place.clauses))
    if found is None:
        raise LookupError(f"{place.file} has no {place.name}")
    return found


@cache
def used_by(place: Place) -> list[Place]:
    """Returns what a place uses, without duplicates, in the order of its words. A word that is not found is an
    error."""
    found = found_at(place)
    if isinstance(found, definitions.Definition):
        places = [used_in_definition(place, word) for word in found.names]
    else:
        places = used_in_code(place, found)
    return list(dict.fromkeys(it for it in places if it is not None and it != place))


def used_in_definition(place: Place, word: str) -> Place | None:
    """Returns what a word in a definition means, or None for the standard library."""
    read = definitions.read(place.path)
    first = word.split(".")[0]
    own = read.defined(first)
    if own is not None:
        return Place(place.path, own.name)
    is_variable = first in read.definitions[place.name].patterns and not is_imported(read.imports, first)
    return None if is_variable else meant(place, read.imports, word)


def used_in_code(place: Place, found: code.Item) -> list[Place | None]:
    """Returns what the types and the words of a type or a contract mean. A parameter's member belongs to a trait."""
    read, crate = code.read(place.path), place.file.split("/")[0]
    traits = dict.fromkeys(bound for word in found.names for bound in found.generics.get(word.split(".")[0], []))
    places = [named_type(place, crate, read, name) for name in [*found.types, *traits]]
    for word in found.names:
        first = word.split(".")[0]
        if first in found.generics:
            continue
        is_type = first[:1].isupper() and not is_imported(read.imports, first)
        places.append(named_type(place, crate, read, first) if is_type else meant(place, read.imports, word))
    return places


def meant(place: Place, imports: list[Import], word: str) -> Place | None:
    """Returns what a word means given the imports of its file, or None for the standard library or the kit."""
    found = imported(imports, word)
    if found is None and not is_of_kit(imports, word):
        raise LookupError(f"{place.file}: {place.name}: the word {word} is not found")
    return found


def is_imported(imports: list[Import], first: str) -> bool:
    """Returns whether an import has this name."""
    return any(it.alias == first or first in it.names for it in imports)


def is_of_kit(imports: list[Import], word: str) -> bool:
    """Returns whether a word is imported from outside the crates of this repository."""
    first = word.split(".")[0]
    named = [
        it.path for it in imports
        if it.alias == first or any(here == first or definitions.is_operator(here, first) for here in it.names)]
    return any(not (CRATES / path.split(".")[0]).is_dir() for path in named)


def named_type(place: Place, crate: str, read: code.Code, name: str) -> Place | None:
    """Returns the type or the trait that a word in a source file means, which another crate may re-export; or None for
    the kit's."""
    first = read.uses.get(name, "crate")
    owner = crate if first in ("crate", "super", "self") else first
    if name in BUILT_IN or not (CRATES / owner).is_dir():
        return None
    path = type_file(owner, name)
    if path is None and owner != crate:
        return named_type(place, owner, code.read(CRATES / owner / "src" / "lib.rt"), name)
    if path is None:
        raise LookupError(f"{place.file}: {place.name}: the type {name} is not found")
    return Place(path, name)
