"""The released program with its manifest, and the same for a program that was proved here."""

import hashlib
import os
import subprocess
from dataclasses import dataclass
from pathlib import Path

ROOT = Path(__file__).resolve().parent.parent.parent


@dataclass(frozen=True)
class Manifest:
    """A description of a program, with one line per item: the SHA-256 of its file and of its sources, and who built it
    and when."""

    version: str
    date: str
    program: str
    sources: str
    kit: str

    def text(self) -> str:
        return "".join(f"{name} {value}\n" for name, value in vars(self).items())


def manifest_in(path: Path) -> Manifest | None:
    """Returns the manifest in a file, or None if there is none or it lacks a line."""
    try:
        lines = path.read_text(encoding="utf-8").splitlines()
    except OSError:
        return None
    said = dict(line.partition(" ")[::2] for line in lines)
    try:
        return Manifest(**{name: said[name] for name in Manifest.__dataclass_fields__})
    except KeyError:
        return None


@dataclass(frozen=True)
class Repository:
    """The places in a repository that belong to a release."""

    root: Path = ROOT

    @property
    def released(self) -> Path:
        return self.root / "release" / "pgshard-x86_64-linux"

    @property
    def manifest(self) -> Path:
        return self.root / "release" / "MANIFEST"

    @property
    def built(self) -> Path:
        """The program that was last built here by a command of rt that proved it."""
        return self.root / "crates" / "publisher_main" / "out" / "publisher_main"

    @property
    def record(self) -> Path:
        """The manifest of that program, written when it had been proved."""
        return self.built.parent / "proved"

    @property
    def state(self) -> Path:
        """What the script pgshard has found out about all this."""
        return self.built.parent / "state"

    @property
    def version(self) -> str:
        """Returns the version that a release of these sources has."""
        return (self.root / "VERSION").read_text(encoding="utf-8").strip()

    def sources(self) -> str:
        """Returns the SHA-256 of the present sources."""
        ran = subprocess.run([self.root / "tools" / "sources"], stdout=subprocess.PIPE, encoding="utf-8", check=True)
        return ran.stdout.strip()


def sum_of(path: Path) -> str | None:
    """Returns the SHA-256 of a file, or None if it cannot be read."""
    try:
        return hashlib.sha256(path.read_bytes()).hexdigest()
    except OSError:
        return None


def kit() -> str | None:
    """Returns the line with which this machine's kit identifies itself, or None if there is no kit."""
    try:
        ran = subprocess.run(["rt", "version"], stdout=subprocess.PIPE, encoding="utf-8")
    except OSError:
        return None
    return ran.stdout.strip() if ran.returncode == 0 else None


def version_of(program: Path) -> str | None:
    """Returns the version that a program reports, or None if it cannot be run."""
    try:
        ran = subprocess.run([os.path.abspath(program), "--version"], stdout=subprocess.PIPE, encoding="utf-8")
    except OSError:
        return None
    return ran.stdout.strip().removeprefix("pgshard ") if ran.returncode == 0 else None
