"""Tests the Debian package: its files, runs of its commands from another root by an unprivileged user, its manual pages
and its completion. Also tests that `make install` installs the same files."""

import gzip
import os
import shutil
import subprocess
import tempfile
from pathlib import Path

from programs import TOOLS, program
from pythons import python_with
from served.program import NO_PORT, PORTS, free_port
from tally import Tally

ROOT = TOOLS.parent
EXAMPLES = ROOT / "examples"
VERSION = (ROOT / "VERSION").read_text().strip()
NOBODY = 65534

# Files of the package.
FILES = [
    "usr/bin/pgshard", "usr/lib/pgshard/release/pgshard", "usr/lib/pgshard/tools/judge", "usr/lib/pgshard/tools/front",
    "usr/share/man/man1/pgshard.1.gz", "usr/share/man/man1/pgshard-judge.1.gz", "usr/share/man/man1/pgshard-serve.1.gz",
    "usr/share/man/man1/pgshard-publish.1.gz",
    "usr/share/man/man1/pgshard-front.1.gz", "usr/share/bash-completion/completions/pgshard",
    "usr/share/doc/pgshard/README.md", "usr/share/doc/pgshard/docs/OUTPUT.md", "usr/share/doc/pgshard/examples/shop.sql",
    "usr/share/doc/pgshard/copyright", "usr/share/doc/pgshard/changelog.gz",
]

# Files that only Debian's package has.
DEBIAN_ALONE = {"usr/share/doc/pgshard/copyright", "usr/share/doc/pgshard/changelog.gz",
                "usr/share/lintian/overrides/pgshard"}

NEEDED = {"Depends": ["libc6", "python3"], "Recommends": ["postgresql-client", "python3-pglast"]}


def check_package(tally: Tally) -> None:
    """Builds a package of the program under test, and tests it."""
    with tempfile.TemporaryDirectory() as name:
        folder = Path(name)
        folder.chmod(0o755)
        package = folder / f"pgshard_{VERSION}_amd64.deb"
        made = subprocess.run(
            [TOOLS / "package", "--program", program(), "--output", folder], stdout=subprocess.PIPE, encoding="utf-8")
        tally.check("a package", (made.returncode, made.stdout), (0, f"{package}\n"))
        subprocess.run(["dpkg-deb", "-x", package, folder / "root"], check=True)
        check_files(tally, package, folder / "root")
        check_commands(tally, folder)
        check_serving(tally, folder)
        check_consumer(tally, folder)
        check_pages(tally, folder / "root" / "usr" / "share" / "man" / "man1")
        check_completion(tally, folder / "root")
        check_make(tally, folder)
        check_lintian(tally, package)
        check_refused(tally, folder)


def check_files(tally: Tally, package: Path, root: Path) -> None:
    missing = [name for name in FILES if not (root / name).is_file()]
    tally.check("files that the package lacks", missing, [])
    link = os.readlink(root / "usr" / "bin" / "pgshard")
    tally.check("the command is a link within the package", link, "../lib/pgshard/pgshard")
    released = (root / "usr/lib/pgshard/release/pgshard").read_bytes()
    tally.check("the program is the same to the last bit", released == Path(program()).read_bytes(), True)
    shown = subprocess.run(["dpkg-deb", "-f", package], stdout=subprocess.PIPE, encoding="utf-8", check=True).stdout
    fields = dict(line.split(": ", 1) for line in shown.splitlines() if not line.startswith(" "))
    tally.check("its name and version", (fields["Package"], fields["Version"]), ("pgshard", VERSION))
    for field, names in NEEDED.items():
        found = [it.split(" ")[0] for it in fields[field].split(", ")]
        tally.check(f"what the package {field.lower()}", [name for name in names if name not in found], [])
    changes = gzip.decompress((root / "usr/share/doc/pgshard/changelog.gz").read_bytes()).decode()
    tally.check("its newest change", changes.splitlines()[0], f"pgshard ({VERSION}) unstable; urgency=medium")


def check_commands(tally: Tally, folder: Path) -> None:
    """Runs the commands in a folder in which the user may not write."""
    away = folder / "away"
    away.mkdir()
    for name in "shop.sql", "lossy.sql":
        shutil.copy(EXAMPLES / name, away)
    status, certificates, _ = run(folder, "make", "shop.sql")
    (away / "shop.certs").write_text(certificates)
    tally.check("make", (status, certificates.count("\n")), (0, 2))
    tally.check("check of two files", run(folder, "check", "shop.sql", "shop.certs"), (0, "accepted\n", ""))
    tally.check("make of a fault", run(folder, "make", "lossy.sql"), (
        1, "counter public.orders (0, NULL, 0) owners none\n", ""))
    tally.check("judge of a file", run(folder, "judge", "shop.sql"), (
        0, "public.orders: sound\npublic.rates: sound\ntables: 2 judged, 2 sound\n", ""))
    status, shown, _ = run(folder, "help")
    tally.check("help", (status, "Usage: pgshard <COMMAND>" in shown), (0, True))
    for words in ("--version",), ("judge", "--version"), ("front", "--version"):
        status, shown, _ = run(folder, *words)
        tally.check(" ".join(words), (status, VERSION in shown.split()), (0, True))


def run(folder: Path, *words: str) -> tuple[int, str, str]:
    """Runs the installed command. Returns its status, output and standard error."""
    answer = subprocess.run(
        [folder / "root" / "usr" / "bin" / "pgshard", *words], stdin=subprocess.DEVNULL, stdout=subprocess.PIPE,
        stderr=subprocess.PIPE, encoding="utf-8", cwd=folder / "away", env=environment(), **rights())
    return answer.returncode, answer.stdout, answer.stderr


def environment() -> dict[str, str]:
    """Returns the environment of a user, with nothing from the repository."""
    return {"PATH": "/usr/bin:/bin", "LANG": "C.UTF-8", "HOME": "/nonexistent"}


def rights() -> dict:
    """If the tests run as root, returns the arguments that run a command as a user who may not write."""
    return {"user": NOBODY, "group": NOBODY, "extra_groups": []} if os.geteuid() == 0 else {}


def check_serving(tally: Tally, folder: Path) -> None:
    """Runs serve and front until they listen. Tries another port if the first one has been taken."""
    shutil.copy(EXAMPLES / "feed.txt", folder / "away")
    serve = "serve", "shop.sql", "shop.certs", "feed.txt"
    front = "front", "--backend", "1", "--catalog", "shop.sql"
    for words in serve, front:
        for _ in range(PORTS):
            port = str(free_port())
            running = subprocess.Popen(
                [folder / "root" / "usr" / "bin" / "pgshard", *words, "--port", port], stdin=subprocess.DEVNULL,
                stdout=subprocess.PIPE, encoding="utf-8", cwd=folder / "away", env=environment(), **rights())
            assert running.stdout is not None
            found = running.stdout.readline()
            running.terminate()
            running.communicate()
            if found or running.returncode != NO_PORT:
                break
        tally.check(f"{words[0]} listens", found, f"listening {port}\n")


def check_consumer(tally: Tally, folder: Path) -> None:
    """Runs the installed example of a consumer, which finds the command on the path or by a variable."""
    python = python_with("psycopg2")
    if python is None:
        print("skipped: the installed consumer test, since psycopg2 is not installed")
        return
    example = folder / "root/usr/share/doc/pgshard/examples/consumer_test.py"
    commands = folder / "root/usr/bin"
    for more in {"PATH": f"{commands}:/usr/bin:/bin"}, {"PGSHARD": str(commands / "pgshard")}:
        answer = subprocess.run(
            [python, example], stdin=subprocess.DEVNULL, stdout=subprocess.PIPE, stderr=subprocess.PIPE,
            encoding="utf-8", cwd=folder / "away", env=environment() | more, timeout=300, **rights())
        tally.check(f"the installed consumer test by {[*more]}", (answer.returncode, answer.stdout.splitlines()[-1:]), (
            0, ["nothing is lost"]))


def check_pages(tally: Tally, folder: Path) -> None:
    """Checks that the manual pages are rendered without warnings, and have the expected sections."""
    pages = sorted(folder.glob("*.gz"))
    for path in pages:
        text = gzip.decompress(path.read_bytes()).decode()
        for heading in "OPTIONS", "EXIT STATUS":
            tally.check(f"{path.name} has {heading}", f".SH {heading}\n.TP\n" in text, True)
        tally.check(f"{path.name} has the version", f'"pgshard {VERSION}"' in text.splitlines()[0], True)
        for command in "man --warnings -l", "mandoc -T lint -W warning", "groff -man -ww -K utf8 -z":
            check_page(tally, command.split(), path, text)
    judging = gzip.decompress((folder / "pgshard-judge.1.gz").read_bytes()).decode()
    for status in "11", "critical: ", "unknown: ":
        tally.check(f"the status {status} in the manual page", status in judging.partition("EXIT STATUS")[2], True)
    commands = gzip.decompress((folder / "pgshard.1.gz").read_bytes()).decode()
    listed = [name for name in ("show", "make", "check", "eval", "simulate", "judge", "front") if f"\\fB{name}\\fR" not in commands]
    tally.check("commands that the manual lacks", listed, [])


def check_page(tally: Tally, command: list[str], path: Path, text: str) -> None:
    """Checks that a command renders a page, and writes nothing to standard error."""
    if shutil.which(command[0]) is None:
        print(f"skipped: {path.name} by {command[0]}, which is not installed")
        return
    plain = path.with_suffix("")
    plain.write_text(text)
    answer = subprocess.run(
        [*command, plain], stdout=subprocess.PIPE, stderr=subprocess.PIPE, encoding="utf-8",
        env=environment() | {"MANWIDTH": "80"})
    said = answer.stderr + (answer.stdout if command[0] == "mandoc" else "")
    tally.check(f"what {command[0]} says of {path.name}", (answer.returncode, said), (0, ""))
    plain.unlink()


def check_completion(tally: Tally, root: Path) -> None:
    """Checks what bash completes."""
    cases = [
        (["ju"], ["judge"]), (["sim"], ["simulate"]), (["sh"], ["show"]), (["check", "--s"], ["--show"]), (["--v"], ["--version"]), (["help", "fr"], ["front"]),
        (["eval", "--i"], ["--insert"]), (["serve", "--po"], ["--port"]), (["judge", "--ex"], ["--explain"]),
        (["front", "--cat"], ["--catalog"]), (["make", "shop.s"], ["shop.sql"]), (["check", "shop.sql", "shop.c"], ["shop.certs"]),
    ]
    script = 'source "$1"; shift; COMP_WORDS=(pgshard "$@"); COMP_CWORD=$#; _pgshard; printf "%s\\n" "${COMPREPLY[@]}"'
    for words, expected in cases:
        answer = subprocess.run(
            ["bash", "-c", script, "bash", root / "usr/share/bash-completion/completions/pgshard", *words],
            stdout=subprocess.PIPE, encoding="utf-8", cwd=root.parent / "away",
            env=environment() | {"PATH": f"{root / 'usr' / 'bin'}:/usr/bin:/bin"})
        tally.check(f"the completion of {' '.join(words)}", answer.stdout.split(), expected)


def check_make(tally: Tally, folder: Path) -> None:
    """Checks that make installs the files of the package under another prefix, and removes them again."""
    variables = [f"DESTDIR={folder / 'stage'}", "PREFIX=/opt/x", f"PROGRAM={Path(program()).resolve()}"]
    words = ["make", "-s", "-C", str(ROOT), *variables]
    subprocess.run([*words, "install"], check=True)
    found = files_below(folder / "stage" / "opt" / "x")
    expected = {name.removeprefix("usr/") for name in files_below(folder / "root") - DEBIAN_ALONE}
    tally.check("what make installs", found ^ expected, set())
    answer = subprocess.run(
        [folder / "stage/opt/x/bin/pgshard", "make", "shop.sql"], stdout=subprocess.PIPE, cwd=folder / "away",
        env=environment(), **rights())
    tally.check("a run of what make installed", (answer.returncode, answer.stdout.count(b"\n")), (0, 2))
    subprocess.run([*words, "uninstall"], check=True)
    tally.check("what is left of it", files_below(folder / "stage"), set())


def files_below(root: Path) -> set[str]:
    return {str(it.relative_to(root)) for it in root.rglob("*") if it.is_symlink() or it.is_file()}


def check_lintian(tally: Tally, package: Path) -> None:
    if shutil.which("lintian") is None:
        print("skipped: lintian, which is not installed")
        return
    answer = subprocess.run(
        ["lintian", "--fail-on", "error", package], stdout=subprocess.PIPE, stderr=subprocess.DEVNULL, encoding="utf-8",
        **rights())
    errors = [line for line in answer.stdout.splitlines() if line.startswith("E:")]
    tally.check("errors that lintian reports", (answer.returncode, errors), (0, []))


def check_refused(tally: Tally, folder: Path) -> None:
    """Checks that no package is built from a program that does not exist."""
    answer = subprocess.run(
        [TOOLS / "package", "--program", folder / "none", "--output", folder], capture_output=True)
    tally.check("a package without a program", (answer.returncode, answer.stdout), (1, b""))
    tally.check("why there is none", answer.stderr.splitlines()[-1:], [b"package: make ended with status 2"])
    answer = subprocess.run(
        [TOOLS / "package", "--program", program(), "--output", folder / "none"], capture_output=True)
    tally.check("a package without a folder", (answer.returncode, answer.stderr.splitlines()[-1]), (
        2, f"tools/package: error: there is no folder {folder}/none".encode()))
