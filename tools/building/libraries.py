"""The libraries of the repository, and copies in which one of them is proved."""

import os
import pathlib
import shutil
import subprocess

# The text of a library, besides its line of crates.txt.
SOURCES = ("src", "specs", "proofs")


class Repository:
    def __init__(self, root):
        self.root = pathlib.Path(root)
        self.lines = lines_in((self.root / "crates.txt").read_text())
        self.uses = {name: line.partition(":")[2].split() for name, line in self.lines.items()}

    def below(self, name):
        """Returns the repository's libraries that this crate depends on, each after those that it uses itself."""
        found = []
        for used in self.uses[name]:
            if used in self.uses:
                found += [it for it in [*self.below(used), used] if it not in found]
        return found

    def folder(self, name):
        return self.root / "crates" / name

    def prove(self, name, place, before, jobs):
        """Proves and builds the library in the folder `place`, with a command that begins with these words, and takes
        over what was built. Returns the log if it failed."""
        copy, kept = pathlib.Path(place), self.folder(name) / "out"
        self.copy_to(copy, name)
        made = copy / "crates" / name / "out"
        if kept.is_dir():
            shutil.move(kept, made)
        try:
            return log_of([*before, "rt", "lib", "--jobs", str(jobs)], made.parent)
        finally:
            if made.is_dir():
                shutil.move(made, kept)

    def copy_to(self, copy, name):
        """Copies the sources of the library and of those below it, and what was built from these."""
        shutil.copy2(self.root / "HANDLES", copy / "HANDLES")
        here = [*self.below(name), name]
        (copy / "crates.txt").write_text("".join(f"{self.lines[it]}\n" for it in here))
        for it in here:
            for part in SOURCES:
                if (self.folder(it) / part).is_dir():
                    shutil.copytree(self.folder(it) / part, copy / "crates" / it / part)
        for it in self.below(name):
            shutil.copytree(self.folder(it) / "out" / "rlib", copy / "crates" / it / "out" / "rlib", copy_function=link)


def link(source, target):
    """Creates a hard link to the file, or a copy if the file system does not allow that."""
    try:
        os.link(source, target)
    except OSError:
        shutil.copy2(source, target)


def log_of(words, folder):
    """Runs a command. Returns its output if it failed, and otherwise None."""
    given = {"stdin": subprocess.DEVNULL, "stdout": subprocess.PIPE, "stderr": subprocess.STDOUT}
    ran = subprocess.run(words, cwd=folder, **given)
    return None if ran.returncode == 0 else ran.stdout.decode(errors="replace")


def lines_in(text):
    """Returns the line of crates.txt for each crate name."""
    lines = [it for it in text.splitlines() if it and not it.startswith("#")]
    return {it.partition(":")[0].split()[0]: it for it in lines}
