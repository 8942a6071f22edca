"""Finds the words of a definition or a contract that may be names of other definitions."""

import re

# A name, with further names after its dots; or an operator.
WORD = re.compile(r"«?[A-Za-z_][\w']*»?(?:\.[\w']+)*|[^\s\w(){}\[\],;.«»]+ℤ?")
LAMBDA = re.compile(r"λ ([^.]*)\.(?=\s)")
BOUND = re.compile(r"[({]([A-Za-z_][\w' ]*?) :")
STRING = re.compile(r'"[^"\n]*"')
EQUALS = re.compile(r"\s=\s")
STEP = re.compile(r"^ +([a-z_][\w']*) ←", re.M)
LET = re.compile(r"\blet ([a-z_][\w']*) =")
TYPED = re.compile(r"\(([\w' ]+) : [^)]*\)")

# Words that are not names of definitions.
LANGUAGE = {
    ":", "=", "→", "←", "×", "⊥", "¬", "∥", "∥₁", "_", '""', "Type", "Unit", "tt", "record", "let", "in", "ghost",
    "if", "then", "else"}

# Names that are constructors and not variables, although they are in lower case.
CONSTRUCTORS = {"true", "false", "zero", "suc", "record"}


def without_comments(lines: list[str]) -> str:
    """Returns the text of some lines, without comments and quoted text."""
    return STRING.sub('""', "\n".join("" if line.lstrip().startswith("--") else line for line in lines))


def bound_in(text: str) -> set[str]:
    """Returns the variables that a lambda, a let, a step of `do` or a type binds."""
    found = set(LET.findall(text)) | set(STEP.findall(text))
    for binders in LAMBDA.findall(text):
        names = TYPED.sub(r"\1", binders)
        found.update(re.findall(r"[a-z_][\w']*", names))
    for names in BOUND.findall(text):
        found.update(names.split())
    return found


def variables_of(left: str, is_operator: bool = False) -> set[str]:
    """Returns the variables on the left side of a clause. The first word is the name that is being defined, or, for an
    operator, a variable."""
    words = WORD.findall(left)[0 if is_operator else 1:]
    return {word for word in words if word[0].islower() and "." not in word} - CONSTRUCTORS


def patterns_of(clause: str) -> set[str]:
    """Returns the capitalized words on the left side of a clause."""
    left, *body = EQUALS.split(clause, maxsplit=1)
    return {word for word in WORD.findall(left)[1:] if word[0].isupper()} if body else set()


def names_in(text: str, bound: set[str]) -> list[str]:
    """Returns the words of a text that may be names of definitions, without duplicates, in order. `do` counts as
    `>>=`."""
    found = []
    for match in WORD.finditer(text):
        word = ">>=" if match[0] == "do" else match[0].strip("«»")
        before, after = text[match.start() - 1:match.start()], text[match.end():match.end() + 3]
        is_field = before == "." or after in (" = ", " =\n")
        if word not in found and word not in LANGUAGE and not is_field and word.split(".")[0] not in bound:
            found.append(word)
    return found


def names_of_clause(text: str, is_operator: bool = False) -> list[str]:
    """Returns the names in a clause `name pattern = body`. Without a body, the whole clause is examined."""
    left, *body = EQUALS.split(text, maxsplit=1)
    bound = bound_in(text) | (variables_of(left, is_operator) if body else set())
    return names_in(left, bound) + names_in("".join(body), bound)
