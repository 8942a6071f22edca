"""Builds the Debian package: the files that make installs, and the files that Debian requires in addition."""

import argparse
import calendar
import gzip
import hashlib
import os
import re
import subprocess
import sys
import tempfile
import textwrap
import time
from pathlib import Path

from releasing.changes import Release, releases, version
from releasing.command import DIFFERS, WELL, check
from releasing.manifest import ROOT, Repository

CONTROL = """\
Package: pgshard
Version: {version}
Section: database
Priority: optional
Architecture: amd64
Maintainer: {maintainer}
Installed-Size: {kilobytes}
Depends: {libraries}, python3 (>= 3.11)
Recommends: postgresql-client, python3-pglast
Suggests: postgresql-15, python3-psycopg2
Description: prover that row filters of PostgreSQL send each row to one subscriber
 pgshard checks whether the WHERE clauses of PostgreSQL 15 publications shard
 each table correctly: whether every row that the table may ever hold goes to
 exactly one subscriber. The server does not check this. It is proved that
 pgshard accepts no other sharding.
 .
 pgshard judge reads what a running server publishes, and needs
 postgresql-client and python3-pglast. pgshard serve, publish and front are a
 publisher for testing consumers of row-filtered streams.
"""

COPYRIGHT = """\
Format: https://www.debian.org/doc/packaging-manuals/copyright-format/1.0/
Upstream-Name: pgshard

Files: *
Copyright: 2026 the owner of pgshard
License: none-named
 The owner of pgshard has not named a licence yet.
"""

# The program is bit for bit the one that was proved and built, so nothing is stripped or added here.
OVERRIDES = """\
pgshard: unstripped-binary-or-object [usr/lib/pgshard/release/pgshard]
"""

# The maintainer of a package if none is known.
NOBODY = "nobody <nobody@pgshard.invalid>"

GLIBC = re.compile(rb"GLIBC_2\.(\d+)\0")


def run(words: list[str], help: str) -> int:
    """Runs the command, and returns its exit status."""
    parser = argparse.ArgumentParser(
        prog="tools/package", description=help, formatter_class=argparse.RawDescriptionHelpFormatter)
    parser.add_argument("--output", type=Path, default=Path("."), metavar="FOLDER", help="the folder for the package")
    parser.add_argument("--program", type=Path, metavar="FILE", help="a program to package instead of the release")
    given = parser.parse_args(words)
    repository = Repository()
    if given.program is None and check(repository) != WELL:
        return DIFFERS
    if not given.output.is_dir():
        parser.error(f"there is no folder {given.output}")
    path = given.output / f"pgshard_{version()}_amd64.deb"
    try:
        write_package(path, (given.program or repository.released).resolve())
    except subprocess.CalledProcessError as fault:
        print(f"package: {fault.cmd[0]} ended with status {fault.returncode}", file=sys.stderr)
        return DIFFERS
    except OSError as fault:
        print(f"package: {fault}", file=sys.stderr)
        return DIFFERS
    print(path)
    return WELL


def write_package(path: Path, program: Path) -> None:
    """Writes the package. All times in it are that of the release."""
    seconds = str(seconds_of(releases()[0].date))
    with tempfile.TemporaryDirectory() as folder:
        root = Path(folder) / "root"
        variables = {key: value for key, value in os.environ.items() if key not in ("MAKEFLAGS", "MAKELEVEL")}
        install: list[str | Path] = [
            "make", "-s", "-C", ROOT, "install", f"DESTDIR={root}", "PREFIX=/usr", f"PROGRAM={program}"]
        subprocess.run(install, check=True, stdout=subprocess.DEVNULL, env=variables)
        add_debian_files(root, program)
        build: list[str | Path] = ["dpkg-deb", "--root-owner-group", "--build", root, path]
        subprocess.run(build, check=True, stdout=subprocess.DEVNULL, env=variables | {"SOURCE_DATE_EPOCH": seconds})


def add_debian_files(root: Path, program: Path) -> None:
    """Adds the files that Debian requires of each package."""
    for script in (root / "usr" / "lib" / "pgshard" / "tools").iterdir():
        if script.is_file() and os.access(script, os.X_OK):
            text = script.read_text(encoding="utf-8")
            script.write_text(text.replace("#!/usr/bin/env python3\n", "#!/usr/bin/python3\n", 1), encoding="utf-8")
    documents = root / "usr" / "share" / "doc" / "pgshard"
    write(documents / "copyright", COPYRIGHT)
    (documents / "changelog.gz").write_bytes(gzip.compress(debian_changes().encode(), 9, mtime=0))
    write(root / "usr" / "share" / "lintian" / "overrides" / "pgshard", OVERRIDES)
    files = sorted(it for it in root.rglob("*") if it.is_file() and not it.is_symlink())
    sums = [f"{hashlib.md5(it.read_bytes()).hexdigest()}  {it.relative_to(root)}\n" for it in files]
    kilobytes = sum(-(-it.stat().st_size // 1024) for it in files)
    write(root / "DEBIAN" / "md5sums", "".join(sums))
    write(root / "DEBIAN" / "control", CONTROL.format(
        version=version(), maintainer=maintainer(), kilobytes=kilobytes, libraries=libraries_of(program)))
    for path in [root, *root.rglob("*")]:
        if not path.is_symlink():
            path.chmod(0o755 if path.is_dir() or os.access(path, os.X_OK) else 0o644)


def write(path: Path, text: str) -> None:
    path.parent.mkdir(parents=True, exist_ok=True)
    path.write_text(text, encoding="utf-8")


def libraries_of(program: Path) -> str:
    """Returns the packages of the C library that the program needs, according to the version and library names in its
    file."""
    data = program.read_bytes()
    newest = max((int(it) for it in GLIBC.findall(data)), default=17)
    others = ", libgcc-s1" if b"\0libgcc_s.so.1\0" in data else ""
    return f"libc6 (>= 2.{newest}){others}"


def maintainer() -> str:
    """Returns the maintainer of the package: the one that Debian's variables name, or else the author of the last
    commit."""
    name, address = os.environ.get("DEBFULLNAME"), os.environ.get("DEBEMAIL")
    if name and address:
        return f"{name} <{address}>"
    try:
        ran = subprocess.run(
            ["git", "-C", ROOT, "log", "-1", "--format=%an <%ae>"], stdout=subprocess.PIPE, stderr=subprocess.DEVNULL,
            encoding="utf-8")
    except OSError:
        return NOBODY
    return ran.stdout.strip() or NOBODY


def debian_changes() -> str:
    """Returns CHANGELOG.md in Debian's format."""
    return "\n".join(entry(it) for it in releases())


def entry(release: Release) -> str:
    date = time.strftime("%a, %d %b %Y %H:%M:%S +0000", time.gmtime(seconds_of(release.date)))
    changes = "".join(
        textwrap.fill(it, 79, initial_indent="  * ", subsequent_indent="    ") + "\n" for it in release.changes)
    return f"pgshard ({release.version}) unstable; urgency=medium\n\n{changes}\n -- {maintainer()}  {date}\n"


def seconds_of(date: str) -> int:
    """Returns the beginning of a day, in seconds since 1970."""
    return calendar.timegm(time.strptime(date, "%Y-%m-%d"))
