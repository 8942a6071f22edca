"""Checks the figures that several pages give: each has to be the same wherever it is, and in the code that sets it."""

import pathlib
import re
import sys
from collections.abc import Callable

ROOT = pathlib.Path(__file__).resolve().parent.parent.parent
sys.path.insert(0, str(ROOT / "tools"))

from believing.theorems import SOUNDNESS
from believing.walking import count, places
from tally import Tally

README, OUTPUT, CATALOGS, FEEDING = "README.md", "docs/OUTPUT.md", "docs/CATALOGS.md", "docs/FEEDING.md"
ALGORITHMS, CONTRIBUTING = "docs/ALGORITHMS.md", "docs/CONTRIBUTING.md"
READING, RELEASING = "docs/READING.md", "docs/RELEASING.md"
LIMITS, FRONT = "tools/pgshard_tools/judging/limits.py", "tools/pgshard_tools/fronting/command.py"
DRAFT, CERT = "crates/pub_reader/src/draft.rt", "crates/split_cert/src/cert.rt"
TREE, REQUESTS = "crates/command_tree/src/tree.rt", "crates/cli/src/requests.rt"
CATALOG_README, LARGEST = "crates/pub_catalog/README.md", "crates/replica_identity/README.md"
CHECKER_README = "crates/shard_checker/README.md"
WAIT = r"[^\[]*\[default: (\w+)\]"

# Each figure with the pages that give it, and how each page words it. Of a pattern's groups, one is the figure. A page
# may give it several times, but not with another value, and not never.
FIGURES: dict[str, dict[str, str]] = {
    "minutes of the first build": {
        README: r"(\w+) processor minutes",
        RELEASING: r"(\w+) processor minutes",
        "pgshard": r"(\w+) processor minutes",
    },
    "disk of the first build": {README: r"minutes and (\w+ \w+) of disk", RELEASING: r"minutes, (\w+ \w+) of disk"},
    "memory of a check": {
        "tools/building/room.py": r"MEMORY = (\d+)_000_000_000",
        "tools/first_build": r"than (\w+) GB of memory",
        "tools/gate_minutes": r"than (\w+) GB of memory",
    },
    "bytes of an input": {
        "crates/commands/src/input.rt": r"MAX_INPUT: usize = (\w+)",
        "crates/cli/src/publish/parts.rt": r"MAX_PART: usize = (\w+)",
        CATALOGS: r"Length of the input \| ([\w,]+) bytes",
        OUTPUT: r"inputs of ([\w,]+) bytes",
        "crates/commands/README.md": r"bytes if these are known, at most ([\w,]+)",
    },
    "tables of a catalog": {
        DRAFT: r"MAX_TABLES: usize = (\w+)",
        CATALOGS: r"\| Tables; publications; subscriptions \| (\w+);",
        OUTPUT: r"one beyond it: (\w+) tables|with (\w+) tables of",
        LIMITS: r'"(\w+) tables"',
        CATALOG_README: r"(\w+) tables, each",
        LARGEST: r"(\w+) tables of",
        CHECKER_README: r"(\w+) tables of",
    },
    "publications of a catalog": {
        DRAFT: r"MAX_PUBLICATIONS: usize = (\w+)",
        CATALOGS: r"\| Tables; publications; subscriptions \| \w+; (\w+);",
        OUTPUT: r"indexes(?: a table)?, (\w+) publications",
        LIMITS: r'"(\w+) publications"',
        CATALOG_README: r"at most (\w+) publications and",
        LARGEST: r"columns, (\w+) publications",
    },
    "subscriptions of a catalog": {
        DRAFT: r"MAX_SUBSCRIPTIONS: usize = (\w+)",
        CATALOGS: r"\| Tables; publications; subscriptions \| \w+; \w+; (\w+) \|",
        OUTPUT: r"publications, (\w+) subscriptions",
        LIMITS: r'"(\w+) subscriptions"',
        CATALOG_README: r"publications and (\w+) subscriptions",
        LARGEST: r"publications, (\w+) subscriptions",
    },
    "columns of a table": {
        "crates/sql_reader/src/element.rt": r"MAX_COLUMNS: usize = (\w+)",
        OUTPUT: r"\d+ tables,? (?:of )?(\w+) columns",
        CATALOGS: r"Columns of a table; unique indexes of a table \| (\w+);|An index may have (\w+) columns",
        LIMITS: r'"(\w+) columns',
        CATALOG_README: r"at most (\w+) columns",
        LARGEST: r"tables of (\w+) columns",
        CHECKER_README: r"tables of (\w+) columns",
    },
    "unique indexes of a table": {
        DRAFT: r"MAX_INDEXES: usize = (\w+)",
        CATALOGS: r"Columns of a table; unique indexes of a table \| \w+; (\w+) \|",
        OUTPUT: r"columns and (\w+) (?:unique )?indexes",
        LIMITS: r'"(\w+) unique indexes',
        CATALOG_README: r"(\w+) unique indexes",
    },
    "atoms of a table": {
        "crates/sql_reader/src/limits.rt": r"MAX_ATOMS: usize = (\w+)",
        CATALOGS: r"filters of one table \| (\w+);",
        OUTPUT: r"(\w+) atoms and",
        LIMITS: r'"(\w+) different conditions|ATOMS = (\w+)',
    },
    "nodes of the filters of a table": {
        "crates/sql_reader/src/limits.rt": r"MAX_NODES: usize = (\w+)",
        CATALOGS: r"filters of one table \| \w+; ([\w,]+) \|",
        OUTPUT: r"atoms and ([\w,]+) nodes",
        LIMITS: r'"([\w,]+) conditions, ANDs',
    },
    "entries of a list": {
        "crates/sql_reader/src/list.rt": r"MAX_ENTRIES: usize = (\w+)",
        CATALOGS: r"Entries of an IN list \| (\w+)",
        OUTPUT: r"(\w+) entries of a list",
        LIMITS: r'"(\w+) entries',
    },
    "nesting": {
        "crates/sql_reader/src/expression.rt": r"MAX_NESTING: u32 = (\w+)",
        CATALOGS: r"Nesting of parentheses and NOT \| (\w+)",
        OUTPUT: r"nesting of (\w+)",
        LIMITS: r"nests over (\w+) deep",
    },
    "bytes of a string": {
        "crates/filter_tree/src/validity.rt": r"MAX_TEXT_BYTES: usize = (\w+)",
        CATALOGS: r"of a string \| \w+ bytes; ([\w,]+) bytes",
        OUTPUT: r"texts of ([\w,]+) bytes",
        LIMITS: r'"([\w,]+) bytes in a text',
        "crates/filter_tree/README.md": r"at most ([\w,]+) bytes|to ([\w,]+) bytes",
    },
    "steps of a script": {"crates/pub_reader/src/step_word.rt": r"MAX_STEPS: usize = (\w+)", OUTPUT: r"([\w,]+) steps"},
    "commands of a transaction": {
        "crates/tables_log/src/committing.rt": r"MAX_COMMANDS: usize = (\w+)",
        OUTPUT: r"([\w,]+) commands of a transaction",
    },
    "steps of make for a table": {
        "crates/cert_search/src/search.rt": r"pub const MAX_STEPS: u64 = (\w+)",
        ALGORITHMS: r"ends after ([\w,]+) steps",
    },
    "steps of make for all tables": {
        "crates/cert_maker/src/making.rt": r"RUN_STEPS: u64 = (\w+)",
        ALGORITHMS: r"share ([\w,]+) steps",
        "crates/cert_maker/README.md": r"equal part of the ([\w,]+) that",
    },
    "nodes of a certificate": {
        CERT: r"MAX_NODES: usize = (\w+)",
        ALGORITHMS: r"more than ([\w,]+) nodes",
        "docs/CERTIFICATES.md": r"over ([\w,]+) nodes",
        OUTPUT: r"certificates of ([\w,]+) nodes|over ([\w,]+) nodes",
        "crates/split_cert/README.md": r"What is read has at most ([\w,]+) nodes",
        CHECKER_README: r"subscribers, ([\w,]+) nodes",
        "tools/pgshard_tools/judging/verdicts.py": r"([\w,]+) nodes of a certificate",
    },
    "splits on a path": {
        CERT: r"MAX_SPLITS: usize = (\w+)",
        ALGORITHMS: r"(\w+) splits on a path",
        OUTPUT: r"(\w+) splits on a path",
        "crates/split_cert/README.md": r"nodes, (\w+) splits on a path",
        "tools/pgshard_tools/judging/verdicts.py": r"or (\w+) splits on a path",
    },
    "the greatest --limit": {
        REQUESTS: r"MAX_LIMIT: u32 = (\w+)",
        TREE: r"log takes: 1 to (\w+)",
        OUTPUT: r"may contain, 1 to ([\w,]+)",
        "crates/cli/README.md": r"a limit of 1 to ([\w,]+)",
    },
    "--limit by default": {TREE: "log takes" + WAIT, OUTPUT: "log may contain" + WAIT},
    "--start-timeout of publish": {TREE: "starts no stream" + WAIT, FEEDING: r"`--start-timeout`, (\w+) s"},
    "--write-timeout of publish": {TREE: "takes no byte" + WAIT, FEEDING: r"`--write-timeout`, (\w+) s"},
    "--keepalive of publish": {TREE: "between keepalives" + WAIT, FEEDING: r"`--keepalive`, (\w+) s"},
    "--timeout of publish": {
        TREE: "client sends nothing" + WAIT,
        FEEDING: r"`--timeout`, (\w+) s|`--timeout` seconds \((\w+)\)",
    },
    "--start-timeout of front": {
        FRONT: r'start-timeout", type=seconds, default=(\w+)',
        FEEDING: r"`--start-timeout`: (\w+) s",
    },
    "--backend-timeout of front": {
        FRONT: r'backend-timeout", type=seconds, default=(\w+)',
        FEEDING: r"`--backend-timeout`: (\w+) s",
    },
    "--timeout of front": {FRONT: r'"--timeout", type=seconds, default=(\w+)', FEEDING: r"`--timeout`: (\w+) s"},
    "clients of front": {
        "tools/pgshard_tools/fronting/server.py": r"MOST_CLIENTS = (\w+)",
        FEEDING: r"(\w+) clients, or half",
    },
    "must-fail edits": {CONTRIBUTING: r"gate (?:now )?tries (\w+)"},
    "crates with must-fail edits": {CONTRIBUTING: r"edit`, in (\w+) crates"},
    "theorems": {READING: r"lists the (\w+) theorems"},
    "theorems after the first": {README: r"this theorem and (\w+) more"},
    "lines for soundness": {
        README: r"((?:some )?\w+) lines for this one",
        READING: r"(\w+) lines are read for it, without comments, at most 650\.\n\n\| File",
    },
}

NUMBERS = ["no", "one", "two", "three", "four", "five", "six", "seven", "eight", "nine", "ten", "eleven", "twelve"]


def check_figures(tally: Tally) -> None:
    """Checks that each figure is the same on all its pages, and that another figure on one of them is reported."""
    texts = pages()
    for name, patterns in FIGURES.items():
        tally.check(f"pages that differ in {name}", differing(name, texts), {})
        page, pattern = list(patterns.items())[-1]
        match = re.search(pattern, texts[page])
        if match is not None:
            begin, end = match.span(match.lastindex or 0)
            other = {**texts, page: f"{texts[page][:begin]}7777{texts[page][end:]}"}
            tally.check(f"whether another number on {page} is reported, for {name}", bool(differing(name, other)), True)
        without = {**texts, page: re.sub(pattern, "", texts[page])}
        tally.check(f"whether {page} without {name} is reported", bool(differing(name, without)), True)


def edited() -> list[str]:
    """Returns the crate of each must-fail edit of the gate."""
    return [path.parent.parent.name for path in ROOT.glob("crates/*/must-fail/*.edit")]


def parts() -> int:
    """Returns the number of theorems, which is the number of parts of docs/READING.md."""
    return len(re.findall(r"^## \d+\. ", (ROOT / READING).read_text(encoding="utf-8"), re.M))


# Figures that are counted.
COUNTED: dict[str, Callable[[], int]] = {
    "must-fail edits": lambda: len(edited()),
    "crates with must-fail edits": lambda: len(set(edited())),
    "theorems": parts,
    "theorems after the first": lambda: parts() - 1,
    "lines for soundness": lambda: count(places(SOUNDNESS))[0],
}


def value(word: str) -> int | str:
    """Returns what a figure says: a number, or its words if it has a unit."""
    plain = word.replace(",", "").replace("_", "")
    if plain.isdigit():
        return int(plain)
    return NUMBERS.index(word) if word in NUMBERS else word


def figures_in(text: str, pattern: str) -> set[int | str]:
    """Returns the figures that a pattern finds in a text. It may have a group for each wording."""
    return {value(next(group for group in match.groups() if group)) for match in re.finditer(pattern, text)}


def is_about(word: int | str, number: int) -> bool:
    """Returns whether a figure is `some` of this number, rounded to hundreds."""
    return word == f"some {(number + 50) // 100 * 100}"


def differing(name: str, texts: dict[str, str]) -> dict[str, list[int | str]]:
    """Returns what each page gives for a figure, with the count if there is one, unless all are equal."""
    found = {page: sorted(figures_in(texts[page], pattern), key=str) for page, pattern in FIGURES[name].items()}
    if name in COUNTED:
        number = COUNTED[name]()
        found = {page: [number if is_about(it, number) else it for it in its] for page, its in found.items()}
        found["the count"] = [number]
    values = {it for its in found.values() for it in its}
    return {} if len(values) == 1 and all(found.values()) else found


def pages() -> dict[str, str]:
    """Returns the text of each page that gives a figure."""
    names = {page for figure in FIGURES.values() for page in figure}
    return {name: (ROOT / name).read_text(encoding="utf-8") for name in names}
