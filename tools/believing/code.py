"""Source files (.rt): types, their views, and contracts of functions."""

import re
from dataclasses import dataclass, field
from functools import cache
from pathlib import Path

from believing.definitions import Import, import_of
from believing.words import bound_in, names_in

ITEM = re.compile(r"^ *(?:pub(?:\(crate\))? )?(?:unsafe )?(struct|enum|trait|type) (\w+)")
CALL = re.compile(r"^ *(?:pub(?:\(crate\))? )?fn (\w+)")
MODEL = re.compile(r"^impl.* Model for (\w+)")
GHOST_USE = re.compile(r"^ *(ghost use [^;]*;)", re.M)
VARIANT = re.compile(r"^    [A-Z]\w*", re.M)
PRIVATE = re.compile(r"^ +(?!pub )\w+: .*", re.M)
USE = re.compile(r"^(?:pub )?use ([\w:]+?)(?:::(\w+|\{[^}]*\}))?;", re.M)
PARAMETER = re.compile(r"[(,]\s*(?:mut )?([a-z_]\w*):")
CLAUSE = re.compile(r"^ *(ensures|requires)(?: (\w+))? \{", re.M)
GHOST = re.compile(r"^ *ghost (?!use )(\w+)\b(?: =|:) \{", re.M)
SEEN_AS = {"Value", "view", "invariant"}
GENERIC = re.compile(r"(\w+): ((?:[\w:]+(?:<[^<>]*>)?(?: \+ )?)+)")
FIELD = re.compile(r"^ +(?:pub(?:\(crate\))? )?(?:ghost )?([a-z_]\w*):", re.M)
COMMENTED = re.compile(r"^ *(?://|#\[).*$", re.M)


@dataclass
class Item:
    """A type, a trait or a contract: its lines; the words that may be names of types and of definitions; its type
    parameters with their trait bounds; its premises, that is, what a contract requires, or what holds of each value of
    a type because of its ghost fields and the invariant of its view; and the words of what a contract ensures."""

    lines: list[str]
    types: list[str]
    names: list[str]
    generics: dict[str, list[str]] = field(default_factory=dict)
    premises: list[str] = field(default_factory=list)
    ensured: list[str] = field(default_factory=list)


@dataclass
class Code:
    """A source file."""

    lines: list[str]
    imports: list[Import]
    uses: dict[str, str]


@cache
def read(path: Path) -> Code:
    """Reads a source file: its lines, what its clauses import, and the crate of each name that it uses."""
    text = path.read_text(encoding="utf-8")
    lines = text.splitlines()
    found = [import_of(on_one_line(it)) for it in GHOST_USE.findall(text)]
    uses = {}
    for match in USE.finditer(text):
        first = match[1].split("::")[0]
        for name in re.findall(r"\w+", match[2] or match[1].split("::")[-1]):
            uses[name] = first
    return Code(lines, [it for it in found if it is not None], uses)


def on_one_line(text: str) -> str:
    """Joins an import that continues over several lines."""
    return re.sub(r"\s+", " ", text).replace("{ ", "{").replace(", }", "}")


def documented(lines: list[str], at: int) -> int:
    """Returns where the comments and attributes before a line begin."""
    begin = at
    while begin > 0 and lines[begin - 1].lstrip().startswith(("///", "#[")):
        begin -= 1
    return begin


def end_of(lines: list[str], at: int) -> int:
    """Returns where an item ends that begins at a line: after its closing brace, or at its semicolon."""
    depth = 0
    for number in range(at, len(lines)):
        depth += lines[number].count("{") - lines[number].count("}")
        if depth == 0 and (lines[number].rstrip().endswith(("}", ";"))):
            return number + 1
    return len(lines)


def item(path: Path, name: str) -> Item | None:
    """Returns the type or the trait with this name, together with its view."""
    code = read(path)
    for number, line in enumerate(code.lines):
        match = ITEM.match(line)
        if match is None or match[2] != name:
            continue
        own = [it for it in code.lines[number:end_of(code.lines, number)] if not it.strip().startswith("ghost use ")]
        if match[1] == "trait":
            return trait(code, own, number)
        lines = [it for it in code.lines[documented(code.lines, number):number] if "#[" not in it] + own
        return typed(code, name, match[1], lines, COMMENTED.sub("", "\n".join(own)))
    return None


def typed(code: Code, name: str, kind: str, lines: list[str], text: str) -> Item:
    """Returns a type with this text: the types of its public fields; and the names in its ghost fields, which hold of
    each of its values, in its view, and in the invariant of the view."""
    seen, kept = model(code, name), ghosts(text)
    shown = text
    for its in kept:
        shown = shown.replace(its, "")
    shown = VARIANT.sub("", shown) if kind == "enum" else PRIVATE.sub("", shown)
    facts = "\n".join([fact.split("{", 1)[1] for fact in kept] + seen)
    bound = bound_in(facts) | (set(FIELD.findall(text)) if kept else set())
    parameters = generics(text.split("{")[0])
    types = [it for it in re.findall(r"\b[A-Z]\w*", shown) if it not in parameters]
    invariant = [it for it in ghosts("\n".join(seen)) if it.split()[1] == "invariant"]
    premises = [premise(it) for it in kept + invariant]
    return Item([*lines, *seen], types, names_in(facts, bound | parameters.keys()), parameters, premises)


def ghosts(text: str) -> list[str]:
    """Returns the ghost fields of a type, or the ghost members of an impl, each from its first word to its end."""
    found = []
    for begin in GHOST.finditer(text):
        depth, end = 0, begin.end() - 1
        while depth > 0 or end == begin.end() - 1 or text[end - 1] != "}":
            depth += {"{": 1, "}": -1}.get(text[end], 0)
            end += 1
        found.append(text[begin.start():end])
    return found


def generics(head: str) -> dict[str, list[str]]:
    """Returns the type parameters of an item, each with the traits that bound it."""
    head = head.replace("pub(crate)", "pub")
    opened = head.find("<")
    if opened < 0 or "(" in head[:opened]:
        return {}
    listed = head[opened + 1:]
    found = {name: re.findall(r"\w+", re.sub(r"<[^<>]*>", "", bounds)) for name, bounds in GENERIC.findall(listed)}
    plain = re.findall(r"(?:^|[<,]) *([A-Z]\w*)(?=[,>])", head[opened:].split(">")[0] + ">")
    return {**{name: [] for name in plain}, **found}


def trait(code: Code, own: list[str], number: int) -> Item:
    """Returns a trait: its ghost members, and what its functions ensure."""
    head = [it for it in code.lines[documented(code.lines, number):number] if "#[" not in it]
    text = "\n".join(it for it in own if not it.strip().startswith("//"))
    members = set(re.findall(r"(?m)^ *ghost (\w+):", text))
    clauses = [clauses_of(text, begin.start())[0][2] for begin in CLAUSE.finditer(text)]
    facts = "\n".join(clause.split("{", 1)[1] for clause in clauses)
    bound = bound_in(facts) | members | set(PARAMETER.findall(text)) | {"result", "self"}
    return Item([*head, *own], [], names_in(facts, bound))


def model(code: Code, name: str) -> list[str]:
    """Returns the lines that define a type's view."""
    for number, line in enumerate(code.lines):
        match = MODEL.match(line)
        if match is not None and match[1] == name:
            inside = "\n".join(code.lines[number:end_of(code.lines, number)])
            said = [it for it in ghosts(inside) if it.split()[1] in SEEN_AS]
            return [line for it in said for line in f"{it};".splitlines()]
    return []


def contract(path: Path, name: str, clauses: tuple[str, ...]) -> Item | None:
    """Returns the function with this name: its comment, its first lines with the types of its parameters, everything
    that it requires, and these clauses of what it ensures, or all of them if none is named. A clause that it does not
    have is an error."""
    code = read(path)
    for number, line in enumerate(code.lines):
        match = CALL.match(line)
        if match is None or match[1] != name:
            continue
        text = "\n".join(code.lines[number:])
        first = CLAUSE.search(text)
        head = code.lines[documented(code.lines, number):number]
        found = clauses_of(text, first.start())
        for label in set(clauses) - {label for kind, label, _ in found if kind == "ensures"}:
            raise LookupError(f"{path.name}: {name} ensures no clause {label}")
        said = [it for it in found if it[0] == "requires" or not clauses or it[1] in clauses]
        parameters = {**generics(impl_head(code, number)), **generics(text[:first.start()])}
        return contracted([it for it in head if "#[" not in it], text[:first.start()], said, parameters)
    return None


def contracted(
    comment: list[str], head: str, said: list[tuple[str, str | None, str]], parameters: dict[str, list[str]],
) -> Item:
    """Returns a contract with this comment, these first lines and these clauses."""
    lines = [*comment, *head.splitlines(), *(line for _, _, clause in said for line in clause.splitlines())]
    facts = "\n".join(clause.split("{", 1)[1] for _, _, clause in said)
    ensured = "\n".join(clause.split("{", 1)[1] for kind, _, clause in said if kind == "ensures")
    bound = bound_in(facts) | set(PARAMETER.findall(head)) | {"result", "self"}
    given = head.split("->")[0]
    types = [it for it in re.findall(r"\b[A-Z]\w*", given[given.find("("):]) if it not in parameters]
    asked = [premise(clause) for kind, _, clause in said if kind == "requires"]
    return Item(lines, types, names_in(facts, bound), parameters, asked, names_in(ensured, bound))


def impl_head(code: Code, number: int) -> str:
    """Returns the first line of the impl that contains a function, or nothing."""
    heads = [line for line in code.lines[:number] if line.startswith(("impl", "}"))]
    return heads[-1] if heads and heads[-1].startswith("impl") else ""


def premise(text: str) -> str:
    """Returns what a clause or a ghost member says, on one line."""
    return re.sub(r"\s+", " ", text.split("{", 1)[1].rsplit("}", 1)[0]).strip()


def clauses_of(text: str, at: int) -> list[tuple[str, str | None, str]]:
    """Returns the consecutive clauses from a place on: the kind, the label and the text of each."""
    found = []
    while (match := CLAUSE.match(text, at)) is not None:
        depth, end = 0, match.end() - 1
        while True:
            depth += {"{": 1, "}": -1}.get(text[end], 0)
            end += 1
            if depth == 0:
                break
        found.append((match[1], match[2], text[match.start():end]))
        at = end + 1
    return found
