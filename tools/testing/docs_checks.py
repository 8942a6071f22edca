"""Tests that everything the documents name exists, and that the documents stay short."""

import os
import pathlib
import re
import subprocess
import sys

from figures import check_figures
from readme_examples import check_examples
from tally import Tally

ROOT = pathlib.Path(__file__).resolve().parent.parent.parent
CRATES = ROOT / "crates"

# The greatest number of words of a document.
WORDS = {
    "README.md": 1100,
    "docs/ALGORITHMS.md": 1550,
    "docs/ARCHITECTURE.md": 1200,
    "docs/TESTED.md": 500,
    "bench/README.md": 1500,
}

# The number of lines that a crate's README may have.
LINES = range(20, 96)

QUOTED = re.compile(r"`([^`\n]+)`")
BLOCK = re.compile(r"^```.*?^```$", re.S | re.M)
PATH = re.compile(r"[\w.*-]+(?:/[\w.*-]+)+/?\Z")
NAME = re.compile(r"[A-Za-z_]\w*_\w*\Z")
WORD = re.compile(r"\w+")

# Functions that a README says are in files of a crate: `one` and `other` of `crate` (`src/file.rt`, `beside.rt`).
CITED = re.compile(r"((?:`\w+`(?:, | and )?)+) of `(\w+)`\s\(((?:`[\w/]+\.rt`(?:, | and )?)+)\)")

# A function in a file of the README's own crate, as `one` (`src/file.rt`), or of another crate, as `one` of
# `crate/src/file.rt`. A crate may be named instead of a function; it then contains the file.
CITED_HERE = re.compile(r"`(\w+)` (?:\((?:in )?`(src/[\w/]+\.rt)`|(?:of|in) `(\w+/src/[\w/]+\.rt)`)")

# The duration of the first build, which has to be the same in all documents.
BUILD = re.compile(r"(?:first build|--build)[^.\n]{0,80}?\b(\d+)(?: to \d+)? (?:processor )?minutes")

# The files that define the names that documents may use.
SOURCES = "crates/*/src/**/*.rt", "crates/*/specs/**/*.antt", "crates/*/proofs/**/*.antt", "tools/**/*", "examples/*"

# The folders that a document's path may be relative to, besides its own folder.
BEGINS = [ROOT, CRATES, ROOT / "tools", ROOT / "tools" / "testing", *CRATES.iterdir()]

# PostgreSQL's names, and paths that are created later or are patterns.
ELSEWHERE = {"information_schema", "pg_read_all_stats", "t_pkey", "X/X"}
MEANS_OTHERS = re.compile(r"NAME|MODULE|out/|\*")


def check_documents(tally: Tally) -> None:
    """Checks the length of the documents, and then what they name."""
    for name, most in WORDS.items():
        count = len((ROOT / name).read_text(encoding="utf-8").split())
        tally.check(f"{count} words of {name}, at most {most}", count <= most, True)
    for crate in crates():
        readme = CRATES / crate / "README.md"
        count = readme.read_text(encoding="utf-8").count("\n") if readme.exists() else 0
        tally.check(f"the README of {crate}, which has {count} lines", count in LINES, True)
    known = known_words()
    documents = [ROOT / "README.md", *ROOT.glob("docs/*.md"), ROOT / "bench" / "README.md", *CRATES.glob("*/README.md")]
    for document in documents:
        text = BLOCK.sub("", document.read_text(encoding="utf-8"))
        missing = sorted({word for word in QUOTED.findall(text) if is_missing(document, word, known)})
        tally.check(f"what {document.relative_to(ROOT)} names and is not there", missing, [])

    check_citations(tally)
    check_examples(tally)
    check_drawing(tally)
    check_helps(tally)
    check_figures(tally)
    figures = {figure for document in documents for figure in BUILD.findall(document.read_text(encoding="utf-8"))}
    tally.check("figures for the first build", len(figures) <= 1, True)


def check_citations(tally: Tally) -> None:
    """Checks that each function that a crate's README cites is in the crate and the file that it gives."""
    for readme in sorted(CRATES.glob("*/README.md")):
        for names, crate, files in CITED.findall(readme.read_text(encoding="utf-8")):
            if not (CRATES / crate).is_dir():
                continue
            text = "".join(path.read_text(encoding="utf-8") for path in cited_files(crate, files) if path.exists())
            missing = [name for name in QUOTED.findall(names) if not re.search(rf"\bfn {name}\b", text)]
            tally.check(f"functions that {readme.parent.name} cites of {crate} and are not in {files}", missing, [])
        for name, own, other in CITED_HERE.findall(readme.read_text(encoding="utf-8")):
            tally.check(f"{name} of {own or other}, which {readme.parent.name} cites",
                        has_cited(readme.parent, name, own, other), True)


def has_cited(crate: pathlib.Path, name: str, own: str, other: str) -> bool:
    """Returns whether the cited file exists and contains the function. A crate is cited with one of its own files."""
    if own and (CRATES / name).is_dir():
        return (CRATES / name / own).exists()
    path = crate / own if own else CRATES / other
    return path.exists() and re.search(rf"\bfn {name}\b", path.read_text(encoding="utf-8")) is not None


def cited_files(crate: str, files: str) -> list[pathlib.Path]:
    """Returns the files. The first path begins with src/ or a crate; the others may be relative to the first one's
    folder."""
    first, *others = [pathlib.Path(name) for name in QUOTED.findall(files)]
    path = CRATES / crate / first if first.parts[0] == "src" else CRATES / first
    return [path, *(path.parent / name if len(name.parts) == 1 else CRATES / name for name in others)]


def check_drawing(tally: Tally) -> None:
    """Checks that the drawing of the crates matches crates.txt, and that no file is a link, which the gate refuses."""
    drawn = subprocess.run([sys.executable, ROOT / "tools" / "crate_graph", "--check"], capture_output=True)
    tally.check("docs/crates.svg, which tools/crate_graph writes", drawn.returncode, 0)
    listed = subprocess.run(["git", "-C", ROOT, "ls-files", "-s"], capture_output=True, encoding="utf-8")
    links = [line for line in listed.stdout.splitlines() if line.startswith("120000")]
    tally.check("files that are links", links, [])


def check_helps(tally: Tally) -> None:
    """Checks that each command of tools/ prints its help on standard output."""
    for tool in sorted(path for path in (ROOT / "tools").iterdir() if path.is_file() and os.access(path, os.X_OK)):
        shown = subprocess.run([tool, "--help"], stdin=subprocess.DEVNULL, capture_output=True, encoding="utf-8")
        tally.check(f"the help of tools/{tool.name}", (shown.returncode, bool(shown.stdout), shown.stderr), (0, True, ""))


def crates() -> list[str]:
    """Returns the crates of crates.txt."""
    lines = (ROOT / "crates.txt").read_text(encoding="utf-8").splitlines()
    return [re.match(r"\w+", line)[0] for line in lines if line and not line.startswith("#")]


def known_words() -> set[str]:
    """Returns all words of the code, the definitions, the scripts and the examples."""
    found = set()
    for pattern in SOURCES:
        for path in ROOT.glob(pattern):
            if path.is_file() and path.suffix != ".pyc":
                found.update(WORD.findall(path.read_text(encoding="utf-8", errors="replace")))
                found.update(path.relative_to(ROOT).with_suffix("").parts)
    return found


def is_missing(document: pathlib.Path, word: str, known: set[str]) -> bool:
    """Returns whether a word between backquotes is a path or a name that does not exist."""
    if word in ELSEWHERE:
        return False
    if PATH.match(word):
        return not MEANS_OTHERS.search(word) and not is_there(document, word)
    return NAME.match(word) is not None and word not in known


def is_there(document: pathlib.Path, word: str) -> bool:
    """Returns whether a document's path exists, with or without its extension."""
    begins = [document.parent, *BEGINS]
    return any((begin / word).exists() or next(begin.glob(f"{word}.*"), None) is not None for begin in begins)
