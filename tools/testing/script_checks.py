"""Tests the script pgshard in an installed copy: files in place of standard input, the other commands, and the help."""

import os
import re
import resource
import shutil
import signal
import subprocess
import tempfile
import time
from dataclasses import dataclass
from pathlib import Path

from programs import PGSHARD, TOOLS
from refusing_places import full_device
from tally import Tally

# Runs in place of the program: prints its name and arguments, and then its input.
ECHO = """\
#!/bin/sh
printf '%s' "${0##*/}"
for word do printf ' <%s>' "$word"; done
echo
cat
"""

FILES = {
    "catalog": "A;\n",
    "certificates": "o 0\n",
    "script": "VIEW;\n",
    "whole": "A;\n%%\no 0\n",
    "no newline": "A;",
    "empty": "",
    "-x": "x\n",
    "a\nb": "y\n",
}


@dataclass(frozen=True)
class Run:
    """The arguments and the standard input of a run, and the arguments and the input that the program should get."""

    words: tuple[str, ...]
    got: str
    input: str
    given: str = ""


RUNS = [
    Run(("make",), "<make>", "given\n", "given\n"),
    Run(("make", "catalog"), "<make>", "A;\n"),
    Run(("make", "-"), "<make>", "given\n", "given\n"),
    Run(("make", "no newline"), "<make>", "A;"),
    Run(("make", "--", "-x"), "<make> <-->", "x\n"),
    Run(("make", "a\nb"), "<make>", "y\n"),
    Run(("show", "catalog"), "<show>", "A;\n"),
    Run(("check", "--show", "catalog", "certificates"), "<check> <--show>", "A;\n%%\no 0\n"),
    Run(("check", "whole"), "<check>", "A;\n%%\no 0\n"),
    Run(("check", "catalog", "certificates"), "<check>", "A;\n%%\no 0\n"),
    Run(("check", "no newline", "certificates"), "<check>", "A;\n%%\no 0\n"),
    Run(("check", "no newline", "no newline"), "<check>", "A;\n%%\nA;\n"),
    Run(("check", "catalog", "empty"), "<check>", "A;\n%%\n"),
    Run(("check", "catalog", "-"), "<check>", "A;\n%%\no 1\n", "o 1\n"),
    Run(("check", "-", "certificates"), "<check>", "B;\n%%\no 0\n", "B;\n"),
    Run(("check", "--wrong", "catalog"), "<check> <--wrong>", "A;\n"),
    Run(("eval", "orders"), "<eval> <orders>", "given", "given"),
    Run(("eval", "orders", "catalog"), "<eval> <orders>", "A;\n"),
    Run(("eval", "catalog", "catalog", "script"), "<eval> <catalog>", "A;\n%%\nVIEW;\n"),
    Run(("eval", "--insert", "orders", "catalog", "script"), "<eval> <--insert> <orders>", "A;\n%%\nVIEW;\n"),
    Run(("eval", "orders", "catalog", "--insert"), "<eval> <orders> <--insert>", "A;\n"),
    Run(("eval", "--", "-t", "-x"), "<eval> <--> <-t>", "x\n"),
    Run(("simulate", "--limit", "5", "whole", "script"), "<simulate> <--limit> <5>", "A;\n%%\no 0\n%%\nVIEW;\n"),
    Run(("simulate", "catalog", "certificates", "script", "--limit=5"), "<simulate> <--limit=5>",
        "A;\n%%\no 0\n%%\nVIEW;\n"),
    Run(("serve", "--port", "1", "--connections", "2", "catalog"), "<serve> <--port> <1> <--connections> <2>", "A;\n"),
    Run(("publish", "--port", "0", "catalog", "certificates"), "<publish> <--port> <0>", "A;\n%%\no 0\n%%\nVIEW;\n",
        "VIEW;\n"),
    Run(("publish", "whole", "--port", "0", "--write-timeout", "5"), "<publish> <--port> <0> <--write-timeout> <5>",
        "A;\n%%\no 0\n%%\nVIEW;\n", "VIEW;\n"),
    Run(("publish", "--port", "0", "--commands", "0", "whole"), "<publish> <--port> <0> <--commands> <0>",
        "A;\n%%\no 0\n%%\n", "VIEW;\n"),
    Run(("publish", "--port", "0", "--commands=0", "catalog", "certificates"), "<publish> <--port> <0> <--commands=0>",
        "A;\n%%\no 0\n%%\n", "VIEW;\n"),
    Run(("publish", "catalog", "certificates", "script", "--port=0"), "<publish> <--port=0>", "A;\n%%\no 0\n%%\nVIEW;\n"),
    Run(("other", "catalog"), "<other> <catalog>", "given", "given"),
    Run((), "", "", ""),
    Run(("--version",), "<--version>", "", ""),
]

# Arguments that are refused, and the reason.
REFUSED = [
    (("make", "none"), "there is no file none"),
    (("check", "catalog", "none"), "there is no file none"),
    (("make", "."), ". is a folder"),
    (("eval", "orders", "catalog", "."), ". is a folder"),
]

# Runs in which the program takes the place of the script's process.
PROCESSES = [
    ("serve", "catalog"), ("serve", "catalog", "script"), ("publish", "whole"), ("publish", "catalog", "certificates"),
    ("publish", "catalog", "certificates", "script"),
]

SECONDS = 120

COMMAND = re.compile(r"^  ([a-z]+) +\S", re.M)


def check_script(tally: Tally) -> None:
    """Runs the script in another folder, through a symbolic link."""
    with tempfile.TemporaryDirectory() as folder:
        copy, files = Path(folder) / "copy", Path(folder) / "files"
        installed(copy, ECHO)
        files.mkdir()
        for name, text in FILES.items():
            (files / name).write_text(text)
        check_inputs(tally, copy / "pgshard", files)
        check_no_room(tally, copy / "pgshard", files)
        (Path(folder) / "link").symlink_to("copy/pgshard")
        check_others(tally, Path(folder) / "link", files)
        check_help(tally, Path(folder) / "shown")


def installed(root: Path, program: str | None = None) -> None:
    """Makes an installed copy, whose program is this script or the program under test."""
    (root / "release").mkdir(parents=True)
    shutil.copy2(TOOLS.parent / "pgshard", root)
    (root / "tools").symlink_to(TOOLS)
    if program is None:
        (root / "release" / "pgshard").symlink_to(os.path.abspath(PGSHARD))
    else:
        (root / "release" / "pgshard").write_text(program)
        (root / "release" / "pgshard").chmod(0o755)


def check_inputs(tally: Tally, script: Path, files: Path) -> None:
    """Checks what the program gets."""
    for run in RUNS:
        name = f" {run.got}".rstrip(" ")
        found = ran(script, *run.words, given=run.given, folder=files)
        tally.check(f"the input of {run.words}", found, (0, f"pgshard{name}\n{run.input}", ""))
    for words, why in REFUSED:
        expected = f"command line\nerror: {why}\n\nFor more information, try '--help'.\n"
        tally.check(f"the words {words}", ran(script, *words, folder=files), (2, expected, ""))
    left = {path.name for path in files.iterdir()} - set(FILES)
    tally.check("files that are left", left, set())


def check_others(tally: Tally, script: Path, files: Path) -> None:
    """Tests judge and front, what an installed copy lacks, and that the program replaces the script's process."""
    for tool in "judge", "front":
        expected = subprocess.run([TOOLS / tool, "--help"], stdout=subprocess.PIPE, encoding="utf-8").stdout
        for words in (tool, "--help"), ("help", tool):
            tally.check(f"pgshard {' '.join(words)}", ran(script, *words, folder=files), (0, expected, ""))
    for word in "--build", "--unproved":
        found = ran(script, word, "make", folder=files)
        tally.check(f"{word} of an installed copy", found, (
            70, "", "pgshard: this is an installed copy, which has no sources\n"))
    found = ran(script, "--program", folder=files)
    tally.check("the program of an installed copy", found[1].endswith("/release/pgshard\n"), True)
    running = subprocess.Popen([script, "serve", "catalog", "script"], stdout=subprocess.PIPE, cwd=files)
    output, _ = running.communicate()
    tally.check("a run of two files", output, b"pgshard <serve>\nA;\n%%\nVIEW;\n")
    check_process(tally, script, files)


def check_process(tally: Tally, script: Path, files: Path) -> None:
    """Checks that the program runs in the script's own process, so that it gets the script's signals."""
    program = script.resolve().parent / "release" / "pgshard"
    program.write_text("#!/bin/sh\necho $$\n")
    for words in PROCESSES:
        with subprocess.Popen([script, *words], stdin=subprocess.DEVNULL, stdout=subprocess.PIPE, cwd=files) as running:
            assert running.stdout is not None
            tally.check(f"the process of {words}", running.stdout.read().decode(), f"{running.pid}\n")
    program.write_text("#!/bin/sh\necho $$\nexec sleep 1000\n")
    for words in PROCESSES:
        for ending in signal.SIGTERM, signal.SIGHUP, signal.SIGINT:
            check_signal(tally, script, files, words, ending)


def check_signal(tally: Tally, script: Path, files: Path, words: tuple[str, ...], ending: signal.Signals) -> None:
    """Checks that a signal ends the program, and with it whatever reads standard input for it."""
    reader, writer = os.pipe()
    with subprocess.Popen([script, *words], stdin=reader, stdout=subprocess.PIPE, cwd=files) as running:
        os.close(reader)
        assert running.stdout is not None
        running.stdout.readline()
        running.send_signal(ending)
        tally.check(f"{ending.name} to {words}", running.wait(SECONDS), -ending)
    tally.check(f"what reads after {ending.name} to {words}", has_reader(writer), False)
    os.close(writer)


def has_reader(pipe: int) -> bool:
    """Returns whether a pipe still has a reader after some time."""
    until = time.monotonic() + SECONDS
    while time.monotonic() < until:
        try:
            os.write(pipe, b"\n")
        except BrokenPipeError:
            return False
        time.sleep(0.02)
    return True


def check_no_room(tally: Tally, script: Path, files: Path) -> None:
    """Tests files that can be read, but not copied: the files are not at fault."""
    def limit() -> None:
        signal.signal(signal.SIGXFSZ, signal.SIG_IGN)
        resource.setrlimit(resource.RLIMIT_FSIZE, (8, 8))

    for words in ("check", "whole", "certificates"), ("check", "certificates", "-"), ("publish", "whole"):
        answer = subprocess.run(
            [script, *words], input=b"0123456789", capture_output=True, cwd=files, preexec_fn=limit,
            env=os.environ | {"TMPDIR": str(files)})
        told = "".join(answer.stderr.decode().splitlines()[-1:])
        begin = f"pgshard: cannot copy {'-' if '-' in words else 'whole'} to {files}/"
        tally.check(f"no room for {words}", (answer.returncode, answer.stdout, told[:len(begin)]), (70, b"", begin))
    for words in ("check", "catalog", "certificates"), ("publish", "catalog"):
        answer = subprocess.run(
            [script, *words], stdin=subprocess.DEVNULL, capture_output=True, cwd=files,
            env=os.environ | {"TMPDIR": str(files / "none")})
        told = answer.stderr.decode().splitlines()[-1:]
        tally.check(f"no folder for {words}", (answer.returncode, answer.stdout, told), (
            70, b"", ["pgshard: cannot make a folder for the input"]))
    tally.check("files that are left without room", {path.name for path in files.iterdir()} - set(FILES), set())


def check_help(tally: Tally, root: Path) -> None:
    """Tests the program's own help, with what the script adds to it."""
    installed(root)
    script, text = root / "pgshard", (root / "pgshard").read_text()
    _, own, _ = ran(Path(PGSHARD), "--help", folder=root)
    listed = [name for name in COMMAND.findall(own.partition("Options:")[0]) if name != "help"]
    for words in ("help",), ("--help",), ("-h",):
        status, shown, _ = ran(script, *words, folder=root)
        found = COMMAND.findall(shown.partition("Options:")[0])
        tally.check(f"the commands of {words[0]}", (status, found), (0, ["judge", *listed, "front", "help"]))
    with full_device() as full:
        for words in (("--help",), ("make", "--help"), ("help", "serve")) if full is not None else ():
            answer = subprocess.run([script, *words], stdout=full, stderr=subprocess.DEVNULL)
            tally.check(f"{' '.join(words)} to a full device", answer.returncode, 4)
    takes_value = set(re.findall(r"nono(--[a-z-]+)", text)) - {"--help"}
    for name in [*listed, *({"serve"} - set(listed))]:
        status, shown, _ = ran(script, "help", name, folder=root)
        usage = re.search(r"^Usage: pgshard (.*)$", shown, re.M)
        tally.check(f"the usage of {name}", usage is not None and usage[1].startswith(name), True)
        tally.check(f"the usage of {name} names files", usage is not None and usage[1].endswith(" [FILE]..."), True)
        tally.check(f"{name} --help", ran(script, name, "--help", folder=root)[:2], (status, shown))
        with_value = set(re.findall(r"^ +(?:-\w, )?(--[a-z-]+) <", shown, re.M))
        tally.check(f"options of {name} that the script takes for files", with_value - takes_value, set())


def ran(script: Path, *words: str, folder: Path, given: str = "") -> tuple[int, str, str]:
    """Runs the script. Returns its status, output and standard error."""
    answer = subprocess.run(
        [script, *words], input=given.encode(), stdout=subprocess.PIPE, stderr=subprocess.PIPE, cwd=folder,
        env=os.environ | {"TMPDIR": str(folder)})
    return answer.returncode, answer.stdout.decode(), answer.stderr.decode()
