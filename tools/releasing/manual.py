"""Writes the manual pages. Their lists of commands, options and exit statuses come from the commands' own help; the
rest is in packaging/man."""

import gzip
import os
import re
import subprocess
from pathlib import Path

from releasing.changes import releases, version
from releasing.manifest import ROOT

# The words that print the help for each page.
PAGES = {
    "pgshard": ("help",),
    "pgshard-judge": ("judge", "--help"),
    "pgshard-serve": ("serve", "--help"),
    "pgshard-publish": ("publish", "--help"),
    "pgshard-front": ("front", "--help"),
}

HEADING = re.compile(r"([A-Za-z][\w ,'-]*):")
# An item of a list, whose text may begin on the next line.
ITEM = re.compile(r"( {1,6})(\S+(?: \S+)*)(?: {2,}(\S.*))?")


def sections_of(help: str) -> list[tuple[str, list[str]]]:
    """Returns the indented parts of a help, each with its heading, such as `Options`, or without one."""
    found: list[tuple[str, list[str]]] = [("", [])]
    for line in help.splitlines():
        heading = HEADING.fullmatch(line)
        if heading is not None:
            found.append((heading[1], []))
        elif line.startswith(" "):
            found[-1][1].append(line)
        elif line:
            found.append(("", []))
    return [it for it in found if it[1]]


def section_of(help: str, name: str) -> list[str]:
    """Returns the lines below a heading."""
    return next((lines for heading, lines in sections_of(help) if heading.lower() == name), [])


def items_of(lines: list[str]) -> list[tuple[str, str]]:
    """Returns the items of a list, each with its text. Items are indented as the first one is, or begin with a dash."""
    found: list[tuple[str, str]] = []
    first = lines[0][:len(lines[0]) - len(lines[0].lstrip())] if lines else ""
    for line in lines:
        item = ITEM.fullmatch(line)
        if item is not None and (item[1] == first or item[2].startswith("-")):
            found.append((item[2], item[3] or ""))
        elif found:
            name, text = found[-1]
            found[-1] = name, f"{text} {line.strip()}".strip()
    return found


def literal(text: str) -> str:
    """Returns text in which no character is special in a page."""
    for plain, escaped in ("\\", "\\e"), ("-", "\\-"), ("'", "\\(aq"), ("`", "\\(ga"), ("^", "\\(ha"), ("~", "\\(ti"):
        text = text.replace(plain, escaped)
    return f"\\&{text}" if text.startswith(".") else text


def listed(items: list[tuple[str, str]]) -> str:
    """Returns a list in the form of a page."""
    lines = []
    for name, text in items:
        lines += [".TP", " ".join(map(word_of, name.split())), literal(text)]
    return "\n".join(lines)


def word_of(word: str) -> str:
    """Returns a word of an item: in italics if it is a placeholder, and in bold otherwise."""
    plain = word.strip("<>")
    return f"\\fI{literal(plain)}\\fR" if plain.isupper() and plain.isalpha() else f"\\fB{literal(word)}\\fR"


def options_of(help: str) -> str:
    """Returns all options; a second group of options has a heading of its own."""
    parts: list[str] = []
    for heading, lines in sections_of(help):
        if lines[0].strip().startswith("-"):
            parts += [f'.SS "{literal(heading.capitalize())}"'] if parts and heading else []
            parts.append(listed(items_of(lines)))
    return "\n".join(parts)


def statuses_of(help: str) -> str:
    """Returns the exit statuses, and those with some options, each list of which has a heading that begins `with`."""
    parts = [listed(items_of(section_of(help, "exit status")))]
    for heading, lines in sections_of(help):
        if heading.startswith("with "):
            parts += [".PP", f"{literal(heading[0].upper() + heading[1:])}:", listed(items_of(lines))]
    return "\n".join(parts)


def page(source: str, help: str, values: dict[str, str]) -> str:
    """Returns a page, from its source and the command's help."""
    values = values | {
        "OPTIONS": options_of(help),
        "COMMANDS": listed(items_of(section_of(help, "commands"))),
        "EXIT_STATUS": statuses_of(help),
    }
    return re.sub(r"@(\w+)@", lambda found: values[found[1]], source)


def write_pages(script: Path, folder: Path, prefix: str) -> None:
    """Writes all pages, compressed, for the commands of this script, which will be installed below the prefix."""
    values = {"VERSION": version(), "DATE": releases()[0].date, "PREFIX": prefix}
    folder.mkdir(parents=True, exist_ok=True)
    for name, words in PAGES.items():
        ran = subprocess.run(
            [script, *words], stdin=subprocess.DEVNULL, stdout=subprocess.PIPE, encoding="utf-8", check=True,
            env=os.environ | {"COLUMNS": "100"})
        source = (ROOT / "packaging" / "man" / f"{name}.1").read_text(encoding="utf-8")
        text = page(source, ran.stdout, values)
        (folder / f"{name}.1.gz").write_bytes(gzip.compress(text.encode(), 9, mtime=0))
