"""The commands of tools/release."""

import datetime
import os
import shutil
import sys
from pathlib import Path

from releasing.manifest import Manifest, Repository, kit, manifest_in, sum_of, version_of

WELL, DIFFERS, BAD_COMMAND = 0, 1, 2


def run(words: list[str], help: str, repository: Repository = Repository()) -> int:
    """Runs the command, and returns its exit status."""
    match words:
        case []:
            return release(repository)
        case ["--check"]:
            return check(repository)
        case ["--compare"]:
            return compare(repository)
        case ["--record", sources]:
            return record(repository, sources)
        case ["--help" | "-h"]:
            print(help.strip())
            return WELL
    print(help.strip(), file=sys.stderr)
    return BAD_COMMAND


def record(repository: Repository, sources: str) -> int:
    """Records that the built program has just been proved from these sources."""
    if repository.sources() != sources:
        return differs("the sources were changed while they were proved, so no release can be made of the program")
    program, identity = sum_of(repository.built), kit()
    if program is None or identity is None:
        return differs(f"{repository.built} is not built")
    put(repository.built, repository.built.with_name("pgshard"))
    note = Manifest(repository.version, today(), program, sources, identity)
    repository.record.write_text(note.text(), encoding="utf-8")
    repository.state.unlink(missing_ok=True)
    return WELL


def release(repository: Repository) -> int:
    """Makes a release of the program that has been proved here."""
    proved = manifest_in(repository.record)
    if proved is None or proved.sources != repository.sources():
        return differs(
            "these sources have not been proved here; `./pgshard --build --version` or `.ci/run` proves them")
    if proved.program != sum_of(repository.built):
        return differs(f"{repository.built} is not the program that was proved")
    said = version_of(repository.built)
    if said != repository.version:
        return differs(f"the program says that it is version {said}, and the file VERSION {repository.version}")
    repository.released.parent.mkdir(exist_ok=True)
    put(repository.built, repository.released)
    note = Manifest(said, today(), proved.program, proved.sources, proved.kit)
    repository.manifest.write_text(note.text(), encoding="utf-8")
    print(f"{named(note)} is in release/")
    return WELL


def check(repository: Repository) -> int:
    """Compares the manifest with the file and with the sources."""
    said = manifest_in(repository.manifest)
    if said is None:
        return differs("there is no release, or its manifest lacks a line")
    if sum_of(repository.released) != said.program:
        return differs(f"{named(said)}: release/pgshard-x86_64-linux is not the file of the manifest")
    if repository.sources() != said.sources:
        return differs(f"{named(said)} is of other sources")
    print(f"{named(said)} is of these sources")
    return WELL


def compare(repository: Repository) -> int:
    """Compares the release with the program that the gate has just proved and built. A release of older sources or of
    another kit is not an error; a release that claims to be of these sources and this kit has to be the same
    program."""
    said = manifest_in(repository.manifest)
    if said is None:
        print("release: there is none, or its manifest lacks a line, so nothing is compared")
        return WELL if not repository.manifest.exists() else DIFFERS
    if sum_of(repository.released) != said.program:
        return differs(f"{named(said)}: release/pgshard-x86_64-linux is not the file of the manifest")
    if repository.sources() != said.sources:
        print(f"{named(said)} is of older sources, so it is not compared; tools/release makes a new one")
        return WELL
    if kit() != said.kit:
        print(f"{named(said)} could not be compared: it was built by {said.kit}, and this is {kit()}")
        return WELL
    if sum_of(repository.built) != said.program:
        return differs(f"{named(said)} is not the program that was proved and built here of the same sources")
    print(f"{named(said)} is the program that was proved and built here")
    return WELL


def differs(why: str) -> int:
    print(f"release: {why}", file=sys.stderr)
    return DIFFERS


def named(manifest: Manifest) -> str:
    return f"release {manifest.version} of {manifest.date}"


def today() -> str:
    """Returns the date of a release, in UTC."""
    return datetime.datetime.now(datetime.timezone.utc).strftime("%Y-%m-%d")


def put(program: Path, path: Path) -> None:
    """Copies a program atomically. A link would not do, since the gate refuses links."""
    new = path.with_name("new")
    shutil.copyfile(program, new)
    new.chmod(0o755)
    os.replace(new, path)
