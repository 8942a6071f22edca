"""Tests that each must-fail edit and each wrong body still applies, that is, that every old text occurs in its file
exactly once. Whether the prover refuses it is tested by `rt ci` and tools/wrong_bodies."""

import pathlib

from tally import Tally

CRATES = pathlib.Path(__file__).resolve().parent.parent.parent / "crates"
# The folders of the two kinds of edits.
FOLDERS = ("must-fail", "wrong")
# How many edits the gate may try, and in how many crates: each edit costs a check, and the first one of a crate a
# proof.
MOST_EDITS, MOST_CRATES = 62, 10


def fault_of(crate: pathlib.Path, edit: pathlib.Path) -> str | None:
    """Returns why the edit cannot be applied, or None if it can."""
    text = None
    old = None
    for line in edit.read_text(encoding="utf-8").splitlines():
        word, _, rest = line.partition(": ")
        if word == "file":
            path = crate / rest.strip()
            if not path.is_file():
                return f"no file {rest}"
            text = path.read_text(encoding="utf-8")
        elif word == "old":
            old = rest
        elif word == "new":
            if text is None or old is None:
                return "a new text without a file or an old text"
            if text.count(old) != 1:
                return f"the old text occurs {text.count(old)} times: {old}"
            text, old = text.replace(old, rest), None
        elif line.strip():
            return f"an unknown line: {line}"
    return "no new text" if text is None or old is not None else None


def check_edits(tally: Tally) -> None:
    for folder in FOLDERS:
        for edit in sorted(CRATES.glob(f"*/{folder}/*.edit")):
            crate = edit.parent.parent
            tally.check(f"{crate.name}/{folder}/{edit.name} applies", fault_of(crate, edit), None)
    tried = sorted(CRATES.glob("*/must-fail/*.edit"))
    tally.check("few must-fail edits", len(tried) <= MOST_EDITS, True)
    tally.check("in few crates", len({edit.parent.parent for edit in tried}) <= MOST_CRATES, True)
