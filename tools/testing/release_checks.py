"""Tests that the script pgshard runs the release if it belongs to the sources, and builds the program otherwise; that
tools/release makes a release only of a program that was proved; and what the gate says of a release."""

import hashlib
import os
import shutil
import subprocess
import tempfile
from pathlib import Path

from tally import Tally

TOOLS = Path(__file__).resolve().parent.parent

CRATES = "# A comment.\npublisher_main may_wait=5: high\nunused: low\nhigh: low kit\n\nlow:\n"

FILES = {
    "VERSION": "1.2.3\n",
    "HANDLES": "Handles allowed: none.\n",
    "crates.txt": CRATES,
    "crates/low/src/lib.rt": "//! low\n",
    "crates/low/proofs/Lib.antt": "proof\n",
    "crates/low/must-fail/wrong.edit": "file: src/lib.rt\n",
    "crates/low/README.md": "low\n",
    "crates/high/src/lib.rt": "//! high\n",
    "crates/high/specs/a/B C.antt": "spec\n",
    "crates/unused/src/lib.rt": "//! unused\n",
    "crates/publisher_main/src/main.rt": "//! main\n",
    "crates/publisher_main/args": "make\n",
    "crates/publisher_main/stdin": "",
}

# What the sum of the sources is computed from, in this order, according to the documentation.
LINES = ["high: low kit", "low:", "publisher_main may_wait=5: high"]
SOURCES = ["HANDLES", "crates/high/specs/a/B C.antt", "crates/high/src/lib.rt", "crates/low/proofs/Lib.antt",
           "crates/low/src/lib.rt", "crates/publisher_main/src/main.rt"]

# Runs in place of rt. A program that it builds prints its source.
RT = """\
#!/bin/sh
case $1 in
    version) echo "a kit $KIT" ;;
    lib) mkdir -p out/rlib ;;
    run)
        mkdir -p out
        { echo '#!/bin/sh'; echo "[ \\"\\$1\\" = --version ] && echo pgshard 1.2.3 || echo '$(cat src/main.rt)'"; } > out/new
        chmod 755 out/new
        mv out/new out/publisher_main ;;
esac
"""

NOT_FOUND = "the command rt, which proves and builds the program, is not found"


class Fake:
    """A repository with a script in place of rt, which may be on the path."""

    def __init__(self, folder: str) -> None:
        self.root = Path(folder) / "repository"
        for name, text in FILES.items():
            (self.root / name).parent.mkdir(parents=True, exist_ok=True)
            (self.root / name).write_text(text)
        for name in "pgshard", "tools/sources", "tools/release", "tools/first_build":
            (self.root / name).parent.mkdir(parents=True, exist_ok=True)
            shutil.copy2(TOOLS.parent / name, self.root / name)
        for name in "releasing", "building":
            shutil.copytree(TOOLS / name, self.root / "tools" / name)
        self.bin = Path(folder) / "bin"
        self.bin.mkdir()
        (self.bin / "rt").write_text(RT)
        (self.bin / "rt").chmod(0o755)

    def run(self, *words: str, with_rt: bool = False, kit: str = "1") -> tuple[int, str, str]:
        """Runs the script with these arguments, or a tool."""
        first = self.bin if with_rt else Path("/nonexistent")
        others = [it for it in os.environ["PATH"].split(":") if not (Path(it) / "rt").exists()]
        script = self.root / words[0] if words[0].startswith("tools/") else self.root / "pgshard"
        rest = words[1:] if words[0].startswith("tools/") else words
        variables = {"PATH": ":".join([str(first), *others]), "KIT": kit}
        answer = subprocess.run(
            [script, *rest], stdin=subprocess.DEVNULL, stdout=subprocess.PIPE, stderr=subprocess.PIPE,
            encoding="utf-8", env=os.environ | variables)
        return answer.returncode, answer.stdout, answer.stderr

    def write(self, name: str, text: str) -> None:
        """Overwrites a file and restores its time, as some copy commands do."""
        path = self.root / name
        times = path.stat().st_atime_ns, path.stat().st_mtime_ns
        path.write_text(text)
        os.utime(path, ns=times)


def check_release(tally: Tally) -> None:
    """Tests the life of a release."""
    with tempfile.TemporaryDirectory() as folder:
        fake = Fake(folder)
        check_sum(tally, fake)
        check_nothing_proved(tally, fake)
        check_first_release(tally, fake)
        check_other_sources(tally, fake)
        check_other_file(tally, fake)
        check_gate(tally, fake)
        check_refused(tally, fake)


def check_sum(tally: Tally, fake: Fake) -> None:
    """Compares the sum with one that is computed in another way."""
    sums = [hashlib.sha256((fake.root / name).read_bytes()).hexdigest() for name in SOURCES]
    text = "".join([*(f"{line}\n" for line in LINES), *(f"{it}  {name}\n" for it, name in zip(sums, SOURCES))])
    expected = hashlib.sha256(text.encode()).hexdigest()
    tally.check("the sum of the sources", fake.run("tools/sources"), (0, f"{expected}\n", ""))
    listed = "".join(f"{name}\n" for name in ["crates.txt", *SOURCES])
    tally.check("the list of the sources", fake.run("tools/sources", "--list"), (0, listed, ""))
    for name in "awk", "find", "sha256sum", "sort":
        (fake.bin / name).write_text("#!/bin/sh\nexit 3\n")
        (fake.bin / name).chmod(0o755)
        status, output, _ = fake.run("tools/sources", with_rt=True)
        tally.check(f"the sum of the sources if {name} fails", (status != 0, output), (True, ""))
        found = fake.run("make", with_rt=True)
        tally.check(f"a run if {name} fails", found, (70, "", "pgshard: cannot read the sources\n"))
        (fake.bin / name).unlink()


def check_nothing_proved(tally: Tally, fake: Fake) -> None:
    none = "pgshard: there is no release of these sources"
    tally.check("a run of nothing", fake.run("make"), (70, "", f"{none}: {NOT_FOUND}\n"))
    status, _, told = fake.run("--program")
    tally.check("the program of nothing", (status, told.startswith(f"{none}, and they are not proved;")), (70, True))
    status, _, told = fake.run("help", with_rt=True)
    tally.check("the help of nothing, for which nothing is built", (status, told.startswith(none)), (70, True))
    tally.check("a release of nothing", fake.run("tools/release", with_rt=True)[0], 1)
    tally.check("the check of nothing", fake.run("tools/release", "--check")[0], 1)
    tally.check("the gate without a release", fake.run("tools/release", "--compare", with_rt=True)[0], 0)


def check_first_release(tally: Tally, fake: Fake) -> None:
    status, output, told = fake.run("make", with_rt=True)
    tally.check("a run that builds", (status, output, told.splitlines()[0]), (
        0, "//! main\n", "pgshard: there is no release of these sources: proving and building the program, which takes "
        "up to 110 processor minutes"))
    tally.check("a run of what was built", fake.run("make"), (0, "//! main\n", ""))
    status, output, _ = fake.run("--program")
    tally.check("the program that was built", (status, output.endswith("/out/pgshard\n")), (0, True))
    tally.check("a release", fake.run("tools/release", with_rt=True)[0], 0)
    said = dict(line.split(" ", 1) for line in (fake.root / "release" / "MANIFEST").read_text().splitlines())
    program = hashlib.sha256((fake.root / "release" / "pgshard-x86_64-linux").read_bytes()).hexdigest()
    expected = {"version": "1.2.3", "program": program, "sources": fake.run("tools/sources")[1].strip(), "kit": "a kit 1"}
    tally.check("the manifest", {name: said.get(name) for name in expected}, expected)
    tally.check("the check of the release", fake.run("tools/release", "--check")[0], 0)
    shutil.rmtree(fake.root / "crates" / "publisher_main" / "out")
    tally.check("a run of the release", fake.run("make"), (0, "//! main\n", ""))
    tally.check("a second run of the release", fake.run("make"), (0, "//! main\n", ""))
    tally.check("the program of the release", fake.run("--program")[1].endswith("/out/released/pgshard\n"), True)
    links = [it for it in fake.root.rglob("*") if it.is_symlink() and it.name != "tools"]
    tally.check("links, which rt refuses", links, [])


def check_other_sources(tally: Tally, fake: Fake) -> None:
    """Checks that a source that was changed in place counts as changed even if its time is the same, and that a file
    that the program does not use is ignored."""
    for name in "crates/low/proofs/Lib.antt", "crates/high/specs/a/B C.antt", "crates/publisher_main/src/main.rt", "HANDLES":
        fake.write(name, f"{FILES[name]}more\n")
        tally.check(f"a run after {name} was changed", fake.run("make"), (
            70, "", f"pgshard: the sources are not those of release 1.2.3: {NOT_FOUND}\n"))
        tally.check(f"the help after {name} was changed", fake.run("help", with_rt=True)[0], 0)
        tally.check(f"the check after {name} was changed", fake.run("tools/release", "--check")[0], 1)
        fake.write(name, FILES[name])
        tally.check(f"a run after {name} was put back", fake.run("make"), (0, "//! main\n", ""))
    (fake.root / "crates/low/src/lib.rt").rename(fake.root / "crates/low/src/lob.rt")
    tally.check("a run without a file", fake.run("make")[0], 70)
    (fake.root / "crates/low/src/lob.rt").rename(fake.root / "crates/low/src/lib.rt")
    for name in "crates/unused/src/lib.rt", "crates/low/must-fail/wrong.edit", "crates/low/README.md", "VERSION":
        fake.write(name, f"{FILES[name]}more\n")
        tally.check(f"the release after {name} was changed", fake.run("make"), (0, "//! main\n", ""))
        fake.write(name, FILES[name])
    fake.write("crates.txt", f"{CRATES}another: high\n")
    tally.check("the release after a crate was added", fake.run("make"), (0, "//! main\n", ""))
    fake.write("crates.txt", CRATES.replace("low kit", "low kit thiserror"))
    tally.check("a run after a crate uses another library", fake.run("make")[0], 70)
    fake.write("crates.txt", CRATES)


def check_other_file(tally: Tally, fake: Fake) -> None:
    """Checks that a released file that differs from the manifest is never run."""
    released = fake.root / "release" / "pgshard-x86_64-linux"
    text = released.read_text()
    fake.write("release/pgshard-x86_64-linux", text.replace("main", "evil"))
    tally.check("a run of another file", fake.run("make"), (
        70, "", f"pgshard: the program in release/ is not that of release 1.2.3: {NOT_FOUND}\n"))
    tally.check("the check of another file", fake.run("tools/release", "--check")[0], 1)
    tally.check("the gate with another file", fake.run("tools/release", "--compare", with_rt=True)[0], 1)
    fake.write("release/pgshard-x86_64-linux", text)


def check_gate(tally: Tally, fake: Fake) -> None:
    """Tests what the gate says after it has proved and built the program."""
    built = fake.root / "crates" / "publisher_main" / "out" / "publisher_main"
    status, output, _ = fake.run("--build", "make", with_rt=True)
    tally.check("a build beside the release", (status, output), (0, "//! main\n"))
    tally.check("the gate where it is the same program", fake.run("tools/release", "--compare", with_rt=True)[0], 0)
    built.write_text(built.read_text() + "\n")
    tally.check("the gate where it is another program", fake.run("tools/release", "--compare", with_rt=True)[0], 1)
    status, told, _ = fake.run("tools/release", "--compare", with_rt=True, kit="2")
    tally.check("the gate under another kit", (status, "could not be compared" in told), (0, True))
    fake.write("crates/low/src/lib.rt", "//! newer\n")
    status, told, _ = fake.run("tools/release", "--compare", with_rt=True)
    tally.check("the gate with newer sources", (status, "of older sources" in told), (0, True))
    fake.write("crates/low/src/lib.rt", FILES["crates/low/src/lib.rt"])
    manifest = fake.root / "release" / "MANIFEST"
    text = manifest.read_text()
    manifest.write_text(text.partition("kit")[0])
    tally.check("the gate with a part of a manifest", fake.run("tools/release", "--compare", with_rt=True)[0], 1)
    manifest.write_text(text)


def check_refused(tally: Tally, fake: Fake) -> None:
    """Tests what no release can be made of. The built program was changed above."""
    status, _, told = fake.run("tools/release", with_rt=True)
    tally.check("a release of another program", (status, "is not the program that was proved" in told), (1, True))
    before = fake.run("tools/sources")[1].strip()
    fake.write("crates/publisher_main/src/main.rt", "//! newer\n")
    tally.check("a record of other sources", fake.run("tools/release", "--record", before, with_rt=True)[0], 1)
    tally.check("a release of other sources", fake.run("tools/release", with_rt=True)[0], 1)
    status, output, told = fake.run("make", with_rt=True)
    tally.check("a run of newer sources", (status, output, told.splitlines()[0]), (
        0, "//! newer\n", "pgshard: the sources are not those of release 1.2.3: proving and building the program, which "
        "takes up to 110 processor minutes"))
    (fake.root / "VERSION").write_text("1.2.4\n")
    status, _, told = fake.run("tools/release", with_rt=True)
    tally.check("a release of another version", (status, "1.2.4" in told), (1, True))
    (fake.root / "VERSION").write_text("1.2.3\n")
    tally.check("the next release", fake.run("tools/release", with_rt=True)[0], 0)
    tally.check("a run of the next release", fake.run("make"), (0, "//! newer\n", ""))
    tally.check("a word that is none", fake.run("tools/release", "--none")[0], 2)
