"""Tests that docs/READING.md lists the definitions that give the main theorems their meaning, and that tools/reading
finds them."""

import pathlib
import shutil
import subprocess
import sys
import tempfile

from tally import Tally

sys.path.insert(0, str(pathlib.Path(__file__).resolve().parent.parent))

from believing import code, definitions
from believing.library import CRATES, ROOT
from believing.page import PAGE, computed
from believing.theorems import THEOREMS
from believing.walking import count, not_read, places

DEFINITIONS = """\
-- What is defined here: an example.
use Rattle.std.specs.Prelude.{ℕ, Bool, List, [], ◌∷◌}
use Rattle.one.specs.Two.{lower, upper as top}
use Rattle.one.specs.Three as three

-- a pair
pub record Pair (left : ℕ) : Type 0 where
  pub right : Shade
  pub lower : top left ≡ right

pub data Shade : Type 0 where
  Dark : ℕ → Shade
  Light : Shade

-- ---- a chapter

abbrev pub walk : (Shade → Bool) → List Shade → ℕ
walk test [] = three.none
walk test (shade ∷ shades) =
    let lower = test shade in record pair { left = λ top. top; right = longest "not lower" shades }

abbrev pub longest : List Shade → ℕ
longest (Light ∷ shades) = 0
longest shades = lower shades
"""

# The names that each definition uses, without bound names, fields, and what is between quotes.
NAMES = {
    "Pair": ["Shade", "top", "≡"],
    "Shade": [],
    "walk": ["Shade", "Bool", "List", "three.none", "∷", "pair", "longest"],
    "longest": ["List", "Shade", "Light", "∷", "lower"],
}

CODE = """\
//! A file of code.

ghost use Rattle.one.specs.Two.{
  lower,
  upper as top,
};

/// A tower.
#[derive(Drop)]
pub struct Tower {
    pub base: Stone,
    inside: Hidden,
    ghost wide: { IsWide base (longest inside) },
}

impl Model for Tower {
    ghost Value = { List Shade };
    ghost view = { λ it. lower it.base };
    ghost invariant = { λ it. IsHigh it };
}

/// What is on a tower.
pub trait Roof {
    ghost high: { Self → Bool } = { λ _. false };

    /// Is put there.
    fn put(&mut self)
        ensures { walk (high self.old) ≡ top };
}

/// Builds on it.
pub fn build(tower: &mut Tower) -> bool
    requires { IsLow tower.old }
    ensures grows { top (tower.old) ≡ tower.new }
    ensures answer { result ≡ walk
        tower.old }
{
    true
}
"""


# New premises, and names that no longer exist. The page has to differ if there is a new premise, and a missing name has
# to be reported. Each has the file, a text of it, what replaces the text, and what tools/reading should then print.
DIFFERS = "docs/READING.md differs from the definitions"
PLANTS = {
    "a new requires": (
        "shard_checker/src/sharding.rt", "    requires { plan_view plan ≡ plan_of (catalog_view catalog) }\n    ensures sound",
        "    requires { plan_view plan ≡ plan_of (catalog_view catalog) }\n"
        "    requires same { catalog_view catalog ≡ catalog_view catalog }\n    ensures sound", DIFFERS),
    "a new ghost field": (
        "pub_catalog/src/catalog.rt", "    ghost few_tables: { length tables.items ≤ 64 },\n",
        "    ghost few_tables: { length tables.items ≤ 64 },\n    ghost fewer: { length tables.items ≤ 3 },\n", DIFFERS),
    "a ghost field that says more": (
        "pub_catalog/src/catalog.rt", "{ length subscriptions.items ≤ 32 }", "{ length subscriptions.items ≤ 1 }", DIFFERS),
    "an invariant": (
        "filter_tree/src/text.rt", "    ghost view = { λ t. string_bytes t.text };\n",
        "    ghost view = { λ t. string_bytes t.text };\n    ghost invariant = { λ t. is_short (string_bytes t.text) };\n",
        "the word is_short is not found"),
    "a new requires of a call that ensures what a law requires": (
        "copy_both/src/link.rt", "Result<Heard, LinkFault>\n        ensures answer {",
        "Result<Heard, LinkFault>\n        requires { IsStarted (link_stage self.old) }\n        ensures answer {", DIFFERS),
    "a new requires of another such call": (
        "copy_both/src/link.rt", "pub fn take(&mut self, book: &Book, now: u64) -> Result<Taken, LinkFault>\n",
        "pub fn take(&mut self, book: &Book, now: u64) -> Result<Taken, LinkFault>\n        requires { now.now < 9 }\n", DIFFERS),
    "a new requires of a call in another crate": (
        "test_subscriber/src/subscriber.rt", "        ensures ok { OnOk result (spec.Feeds ",
        "        requires { 1 ≤ 2 }\n        ensures ok { OnOk result (spec.Feeds ", DIFFERS),
    "a clause that no longer ensures a name": (
        "copy_both/src/link.rt", "        ensures says { HearSays self.old self.new (link_heard self.old book.old piece.now) now result }\n",
        "        ensures says { IfErr result (λ fault. link_sent self.old ≡ link_sent self.old) }\n",
        "copy_both/src/link.rt: hear says does not ensure HearSays"),
    "a clause that is renamed away": (
        "pub_reader/src/statement.rt", "    ensures catalog {", "    ensures catalogue {", "read_catalog ensures no clause catalog"),
    "a law that says less": (
        "pgoutput_msgs/src/laws.rt", "    ensures decoded { SpellingsAreDecoded }\n", "    ensures decoded { RowsReadBack }\n",
        "spellings_are_decoded decoded does not ensure decoded"),
    "a name that is defined by something else": (
        "cli/specs/Connections.antt",
        "  pub is : IsServed checked left now_left source_failed source_ended before after sink_failed served\n",
        "  pub is : ServedOf\n",
        "WasServed is not defined by IsServed"),
    "a definition that is renamed away": (
        "shard_checker/specs/Sound.antt", "pub record IsSound ", "pub record IsSoundToo ", "the word IsSound is not found"),
    "a type that is renamed away": (
        "pub_catalog/src/catalog.rt", "pub struct Catalog {", "pub struct CatalogToo {", "Catalog is not found"),
}


def check_reading(tally: Tally) -> None:
    """Tests the page, and then how names are found."""
    text = PAGE.read_text(encoding="utf-8")
    tally.check("docs/READING.md, which tools/reading --write writes", text, computed(text))
    for theorem in THEOREMS:
        met = sorted(place.name for place in not_read(theorem))
        tally.check(f"the names that are not read for {theorem.key}", met, sorted(theorem.tokens))
        lines, _ = count(places(theorem))
        tally.check(f"{lines} lines for {theorem.key}, at most {theorem.most}", lines <= theorem.most, True)
    with tempfile.TemporaryDirectory() as folder:
        check_definitions(tally, pathlib.Path(folder) / "Example.antt")
        check_code(tally, pathlib.Path(folder) / "example.rt")
        check_plants(tally, pathlib.Path(folder) / "repository")


def check_plants(tally: Tally, root: pathlib.Path) -> None:
    """Tests the page on a copy of the sources, and on copies that have a new premise or lack a name."""
    for name in "tools/believing", *(f"crates/{crate.name}/{part}" for crate in CRATES.iterdir() for part in ("src", "specs")):
        if (ROOT / name).is_dir():
            shutil.copytree(ROOT / name, root / name)
    (root / "docs").mkdir()
    shutil.copy2(PAGE, root / "docs")
    shutil.copy2(ROOT / "tools" / "reading", root / "tools")
    tally.check("the status of tools/reading on a copy", reading(root)[0], 0)
    for what, (name, old, new, said) in PLANTS.items():
        file = root / "crates" / name
        text = file.read_text(encoding="utf-8")
        tally.check(f"{what}: how often its place is there", text.count(old), 1)
        file.write_text(text.replace(old, new), encoding="utf-8")
        status, output = reading(root)
        tally.check(f"{what}: what tools/reading says", (status, said if said in output else output), (1, said))
        file.write_text(text, encoding="utf-8")


def reading(root: pathlib.Path) -> tuple[int, str]:
    """Returns the status of tools/reading in a repository, and what it prints."""
    ended = subprocess.run([sys.executable, root / "tools" / "reading"], capture_output=True, encoding="utf-8")
    return ended.returncode, ended.stdout + ended.stderr


def check_definitions(tally: Tally, file: pathlib.Path) -> None:
    """Tests what a file of definitions imports and defines."""
    file.write_text(DEFINITIONS, encoding="utf-8")
    read = definitions.read(file)
    imports = [(it.path, it.names, it.alias) for it in read.imports[1:]]
    tally.check("the imports of a file", imports, [
        ("one.specs.Two", {"lower": "lower", "top": "upper"}, None), ("one.specs.Three", {}, "three")])
    tally.check("the names of definitions", {name: its.names for name, its in read.definitions.items()}, NAMES)
    tally.check("what defines a constructor", read.defined("Dark"), read.definitions["Shade"])
    tally.check("the lines of a record", len(read.definitions["Pair"].lines), 4)


def check_code(tally: Tally, file: pathlib.Path) -> None:
    """Tests a type and a contract."""
    file.write_text(CODE, encoding="utf-8")
    tower, build = code.item(file, "Tower"), code.contract(file, "build", ("answer",))
    tally.check("the types of a struct, of its public fields", tower.types, ["Tower", "Stone"])
    tally.check("the names of ghost fields, and of what a struct is seen as with its invariant", tower.names, [
        "IsWide", "longest", "List", "Shade", "lower", "IsHigh"])
    tally.check("what holds of each value of a struct", tower.premises, ["IsWide base (longest inside)", "λ it. IsHigh it"])
    roof = code.item(file, "Roof")
    tally.check("the names of a trait", (roof.names, len(roof.lines)), (["walk", "≡", "top"], 8))
    tally.check("the names of a clause and of what is required", build.names, ["IsLow", "≡", "walk"])
    tally.check("what is required", (build.premises, build.types), (["IsLow tower.old"], ["Tower"]))
    both = code.contract(file, "build", ())
    tally.check("the names of all clauses", both.names, ["IsLow", "top", "≡", "walk"])
    tally.check("the imports of clauses", code.read(file).imports[0].names, {"lower": "lower", "top": "upper"})
