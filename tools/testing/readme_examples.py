"""Checks that the code that the READMEs of crates show is in the files that the sentence below it names."""

import pathlib
import re

from tally import Tally

CRATES = pathlib.Path(__file__).resolve().parent.parent.parent / "crates"

# A block of code with its language, and the paragraph after it, which may be a heading.
EXAMPLE = re.compile(r"^```(\w*)\n(.*?)^```\n\n?([^\n]*)", re.S | re.M)

# The part of a sentence that says where the lines are: up to a semicolon, a colon or its end.
CLAUSE = re.compile(r"(?:(?![;:] |\. |\.$).)*")
CITED = re.compile(r"`((?:\w+/)*\w+\.rt|proofs/\w+)`")
WORD = re.compile(r"`(\w+)`")

# A line of an example for lines that are left out.
LEFT_OUT = ".."


# READMEs with a fault: a file without the lines, a crate without the file, a file that does not exist, a line that is
# not in the file, and code that is said to be from no file. Each has the crate, a text of its README, and another one.
PLANTS = [
    ("row_owners", "`src/book.rt`", "`src/keys.rt`"),
    ("pub_catalog", "`pub_reader`", "`sql_reader`"),
    ("cert_search", "`src/making.rt`", "`src/making_rows.rt`"),
    ("shard_checker", "match check_text(alloc, catalog, plan, texts) {", "match check_text(alloc, catalog, texts) {"),
    ("cli", "(`src/main.rt`)", "(its file)"),
    ("publisher_main", "These lines are from `main` (`src/main.rt`).\n\n", ""),
]


def check_examples(tally: Tally) -> None:
    """Checks the examples of all READMEs, and that faults in some of them are found."""
    tally.check("what is wrong with the examples of READMEs", faults(), [])
    for crate, old, new in PLANTS:
        text = (CRATES / crate / "README.md").read_text(encoding="utf-8")
        tally.check(f"how often {old} is in the README of {crate}", old in text, True)
        found = faults_of(CRATES / crate, text.replace(old, new, 1))
        tally.check(f"faults in the README of {crate} with {new or 'nothing'} for {old}", len(found), 1)


def faults() -> list[str]:
    """Returns what is wrong with the examples of all READMEs."""
    return [
        f"{readme.parent.name}: {fault}"
        for readme in sorted(CRATES.glob("*/README.md")) for fault in faults_of(readme.parent, readme.read_text("utf-8"))]


def faults_of(crate: pathlib.Path, text: str) -> list[str]:
    """Returns what is wrong with the examples of a README: code in Rattle without a file, files that do not exist, and
    lines that are in none of the files. Other code may be from no file."""
    found = []
    for language, code, caption in EXAMPLE.findall(text):
        files = cited(crate, CLAUSE.match(caption)[0])
        missing = [f"{file.relative_to(CRATES)} does not exist" for file in files if not file.exists()]
        if files:
            found += missing or absent(code, files)
        elif language == "rust":
            found.append(f"no file is named below {code.splitlines()[0]}")
    return found


def cited(crate: pathlib.Path, clause: str) -> list[pathlib.Path]:
    """Returns the files that a clause names. They are in the crate that is named last before the first of them, or in
    the README's own one; a path may also begin with a crate, or be relative to the folder of the first file."""
    names = CITED.findall(clause)
    if not names:
        return []
    named = [word for word in WORD.findall(clause[:clause.index(f"`{names[0]}`")]) if (CRATES / word).is_dir()]
    root = CRATES / named[-1] if named else crate
    found: list[pathlib.Path] = []
    for name in names:
        path = pathlib.Path(name if name.endswith(".rt") else f"{name}.antt")
        if path.parts[0] in ("src", "proofs"):
            found.append(root / path)
        elif len(path.parts) > 1 or not found:
            found.append(CRATES / path)
        else:
            found.append(found[0].parent / path)
    return found


def absent(code: str, files: list[pathlib.Path]) -> list[str]:
    """Returns the parts of an example that are in none of the files. Indentation makes no difference."""
    texts = [squeezed(file.read_text(encoding="utf-8")) for file in files]
    parts = squeezed(code).split(f"\n{LEFT_OUT}\n")
    return [f"not there: {part.strip()}" for part in parts if not any(f"\n{part.strip()}\n" in text for text in texts)]


def squeezed(text: str) -> str:
    """Returns the lines that are not empty, without the blanks at their ends, between newlines."""
    return "\n" + "\n".join(line.strip() for line in text.splitlines() if line.strip()) + "\n"
