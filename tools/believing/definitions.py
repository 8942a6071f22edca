"""Files of definitions (.antt): the imports of each, and its definitions, each with its lines and its names."""

import re
from dataclasses import dataclass, field
from functools import cache
from itertools import takewhile
from pathlib import Path

from believing.words import bound_in, names_in, names_of_clause, patterns_of, without_comments

HEAD = re.compile(r"( *)(?:(?:abbrev|unfoldable)(?: pub)? (\S+) :|pub (?:record|data) (\S+))")
MODULE = re.compile(r"module _ (.*) where$")
USE = re.compile(r"(pub )?use (?:Rattle\.)?([\w.]+?)(?:\.\{(.*)\})?(?: as (\w+))?$")
CONSTRUCTOR = re.compile(r" +([A-Z]\w*) :")
FIELD = re.compile(r"^ +(?:pub )?([A-Za-z_]\w*) :", re.M)


@dataclass
class Import:
    """A path of a library, and either names from it, each with its local name, or one name for the path."""

    path: str
    names: dict[str, str] = field(default_factory=dict)
    alias: str | None = None
    is_public: bool = False


@dataclass
class Definition:
    """A definition: its lines with the comment before it, and the words that may be names."""

    name: str
    lines: list[str]
    names: list[str] = field(default_factory=list)
    constructors: list[str] = field(default_factory=list)
    # Capitalized words to the left of `=`. Each is a constructor if one has its name, and otherwise a variable.
    patterns: set[str] = field(default_factory=set)
    # The parameters of the enclosing module.
    parameters: set[str] = field(default_factory=set)


@dataclass
class File:
    """A file of definitions."""

    first_line: str
    imports: list[Import]
    definitions: dict[str, Definition]

    def defined(self, name: str) -> Definition | None:
        """Returns the definition of a name or of a data constructor."""
        if name in self.definitions:
            return self.definitions[name]
        for definition in self.definitions.values():
            if name in definition.constructors or is_operator(definition.name, name):
                return definition
        return None


def is_operator(name: str, word: str) -> bool:
    """Returns whether a word is the operator that is defined as `◌word◌`."""
    return "◌" in name and word in name.split("◌")


def import_of(line: str) -> Import | None:
    """Returns the import in a line, if it is one."""
    match = USE.match(line.strip().removesuffix(";").removeprefix("ghost "))
    if match is None:
        return None
    public, path, listed, alias = match.groups()
    names = {}
    for item in (listed or "").split(", "):
        name, _, here = item.strip().partition(" as ")
        if name:
            names[here or name] = name
    if listed is None and alias is None:
        path, _, alias = path.rpartition(".")
        return Import(path, {alias: alias}, None, bool(public))
    return Import(path, names, alias, bool(public))


@cache
def read(path: Path) -> File:
    """Reads a file of definitions."""
    lines = path.read_text(encoding="utf-8").splitlines()
    imports = [found for found in map(import_of, lines) if found is not None]
    definitions, comment, current, parameters = {}, [], None, set()
    for line in lines[1:]:
        head, module = HEAD.match(line), MODULE.match(line)
        if module is not None:
            parameters = bound_in(module[1])
        if head is not None:
            current = Definition(head[2] or head[3], [*comment, line], parameters=parameters if head[1] else set())
            definitions[current.name] = current
        elif not line.strip() or import_of(line) is not None or module is not None:
            current = None
        elif current is not None and not line.startswith("--"):
            current.lines.append(line)
        else:
            current = None
        is_comment = line.lstrip().startswith("--") and not line.lstrip().startswith("-- ----") and current is None
        comment = [*comment, line] if is_comment else []
    for definition in definitions.values():
        find_names(definition)
    return File(beginning(lines), imports, definitions)


def beginning(lines: list[str]) -> str:
    """Returns the comment at the beginning of a file."""
    return " ".join(line.removeprefix("-- ") for line in takewhile(lambda line: line.startswith("-- "), lines))


def find_names(definition: Definition) -> None:
    """Finds the names of a definition, part by part."""
    text, parameters = without_comments(definition.lines), definition.parameters
    begin = next(line for line in text.split("\n") if HEAD.match(line))
    match = HEAD.match(begin)
    if match[3] is not None:
        definition.constructors = CONSTRUCTOR.findall(text) if "data " in begin else []
        bound = bound_in(text) | set(FIELD.findall(text)) | set(definition.constructors) | parameters
        found = names_in(text, bound)
    else:
        found = []
        for part in parts_of(text, len(match[1])):
            found.extend(names_of_clause(part, "◌" in definition.name))
            definition.patterns |= patterns_of(part)
    own = {definition.name, "abbrev", "unfoldable", "pub", "data", "where"}
    definition.names = [
        word for word in dict.fromkeys(found) if word not in own and word.split(".")[0] not in parameters]


def parts_of(text: str, depth: int) -> list[str]:
    """Returns the type and the clauses of a definition. Each begins at its own indentation, and continues further to
    the right."""
    parts = []
    for line in text.split("\n"):
        if line.strip() and len(line) - len(line.lstrip()) <= depth:
            parts.append(line)
        elif parts:
            parts[-1] += "\n" + line
    return parts
