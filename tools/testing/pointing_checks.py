"""Tests the messages about faults that a user at a terminal gets from tools/explain, from the script pgshard and from
judge."""

import os
import pathlib
import signal
import subprocess
import sys
import tempfile

from programs import PGSHARD, TOOLS
from refusing_places import full_device, status_within
from script_checks import installed
from tally import Tally

sys.path.insert(0, str(TOOLS))

from pgshard_tools.pointing.certificates import place_of_fault, place_of_node
from pgshard_tools.pointing.lines import explained
from pgshard_tools.pointing.source import Source

CATALOG = """\
CREATE TABLE t (
    id bigint PRIMARY KEY, "größe" text, region integer NOT NULL);
ALTER TABLE t REPLICA IDENTITY FULL;
CREATE PUBLICATION p FOR TABLE t WHERE (region < 5);
CREATE PUBLICATION "q 2" FOR TABLE t WHERE (region >= 5);
CREATE SUBSCRIPTION s CONNECTION '' PUBLICATION p;
CREATE SUBSCRIPTION u CONNECTION '' PUBLICATION "q 2";
"""
LINES = CATALOG.count("\n")
# Limits of memory in kB. With the greatest, there are explanations.
LIMITS = range(8_000, 36_000, 4_000)
UNSUBSCRIBED = CATALOG[:CATALOG.index("CREATE SUBSCRIPTION")]

# Arguments, input, status, output, and the expected messages.
TOLD = [
    # Texts that are refused. Columns are counted in characters.
    (["make"], "CREATE TABLE ö (", 3, "catalog 13 BadToken\n",
     ["f:1:14: this is not an SQL token, or a quote or comment is not terminated: ö"]),
    (["make"], CATALOG.replace("region < 5", "regio < 5"), 3,
     f"catalog {CATALOG.encode().index(b'region < 5')} UnknownName\n",
     ["f:4:41: this name does not exist: regio"]),
    (["make"], "CREATE TABLE t (id\n", 3, "catalog 19 Expected\n",
     ["f:2:1: syntax error: the end of the text"]),
    (["check"], f"{CATALOG}%%\ns 0 o 0 x\n", 3, "certificate 1 BadToken\n",
     [f"f:{LINES + 2}:9: this is not part of a certificate, which consists of letters s, o, e, n with a number after each"]),
    (["simulate"], f"{CATALOG}%%\no 0\n%%\nCOMMIT;\nVIEWS;", 3, "script 8 UnknownName\n",
     [f"f:{LINES + 5}:1: this name does not exist: VIEWS"]),
    (["eval", "x"], f"{CATALOG}%%\n", 3, "table x\n", ["pgshard: the catalog has no table x"]),
    (["check"], CATALOG, 3, "input\n",
     ["pgshard: check reads a catalog and certificates, from a file for each or with lines %% between them; "
      "the input has 1 part"]),
    (["serve", "--port", "1"], CATALOG, 3, "input\n",
     ["pgshard: serve reads a catalog, certificates and a script, from a file for each or with lines %% between them; "
      "the input has 1 part"]),
    (["check"], f"{CATALOG}%%\ncounter public.t (0, '', 5) owners none\n", 3, "certificate 1 BadToken\n",
     [f"f:{LINES + 2}:1: this is not a certificate, but what make prints of a table that has none"]),
    (["make"], f"{CATALOG}%%\n", 3, "input\n",
     ["pgshard: make reads a catalog and nothing else; the input has 2 parts, separated by lines %%"]),
    (["make"], b"CREATE\xff", 3, "input\n", ["pgshard: the input is not valid UTF-8, at byte 6"]),
    # Rows, each pointed at by the line of its answer.
    (["eval", "t"], f"{CATALOG}%%\n(1, 'ä, b', 3)\n(1, 2\n(1, 'a, ''b''', 3000000000)\n(1, 'a')\n(1, 'ä', x)\n", 1,
     "p=true q 2=false\nunreadable 5 Expected\ninvalid OutOfRange 2\ninvalid Width\nunreadable 10 Expected\n",
     [f"f:{LINES + 3}:6: syntax error: the end of the row",
      f"f:{LINES + 4}:17: region: the number is out of range for the column's type",
      f"f:{LINES + 5}:1: the row does not have as many values as the table has columns",
      f"f:{LINES + 6}:10: syntax error: x"]),
    (["eval", "public.t"], f"{CATALOG}%%\n(1, NULL, NULL)", 1, "invalid NullInNotNull 2\n",
     [f"f:{LINES + 2}:11: region: the value is null, and the column is NOT NULL"]),
    (["eval", "t"], f"{CATALOG}%%\n" + "(1)\n" * 23, 1, "invalid Width\n" * 23,
     [*(f"f:{LINES + 2 + row}:1: the row does not have as many values as the table has columns" for row in range(20)),
      "pgshard: and 3 more rows"]),
    # Tables without a certificate.
    (["make"], CATALOG, 1, "counter public.t (0, '', 5) owners none\n",
     ["f:1:14: public.t: no subscriber gets the row (0, '', 5)"]),
    (["make"], CATALOG, 1, "counter public.t (0, 'a, b', 5) owners s,u\n",
     ["f:1:14: public.t: s and u get the row (0, 'a, b', 5)"]),
    (["make"], UNSUBSCRIBED, 1, "counter public.t (0, '', 5) owners none\n",
     ["f:1:14: public.t: no subscriber gets the row (0, '', 5), since the catalog has no CREATE SUBSCRIPTION"]),
    (["make"], CATALOG, 1, "unknown public.t\n",
     ["f:1:14: public.t: neither a certificate nor a row that shows a fault was found: the search ended without one"]),
    (["make"], CATALOG, 1, "too large public.t\n",
     ["f:1:14: public.t: neither a certificate nor a row that shows a fault was found: the certificate would exceed "
      "its limits"]),
    # Shardings that are refused.
    (["check"], f"{CATALOG}%%\ns 0 o 0 o 1 n 0\n", 1, "refused SecondOwner public.t 2 s\n",
     [f"f:{LINES + 2}:9: public.t: the certificate names a subscriber, but another one may also take the row: s"]),
    (["check"], f"{CATALOG}%%\n", 1, "refused CertCount\n",
     [f"f:{LINES + 2}:1: the catalog has 1 table, but the input has 0 certificates"]),
    (["check"], f"{CATALOG}%%\no 0\n", 1, "refused PublishMissing q 2 truncate\n",
     ["f:5:20: publication q 2, which a subscription takes, does not publish truncate"]),
    (["check"], f"{CATALOG}%%\no 0\n", 1, "refused NotCovered p public.t region\n",
     ["f:4:20: the filter of publication p names column region, which is not in the replica identity of public.t"]),
    (["simulate"], f"{CATALOG}%%\no 0\n%%\n", 1, "refused NoIdentity public.t\n",
     ["f:1:14: the replica identity of public.t does not identify its rows"]),
    (["serve", "--port", "1"], f"{CATALOG}%%\no 0\n%%\n", 1, "listening 1\nclose TakenDiffers\n",
     ["pgshard: a connection took other commits than it was sent, or stops before the end of the log"]),
    (["serve", "--port", "1"], f"{CATALOG}%%\no 0\n%%\n", 1, "listening 1\nclose ConnectionMissing\n",
     ["pgshard: the result of a connection is missing"]),
    # Outputs that give no position.
    (["make"], CATALOG, 0, "o 0\n", []),
    (["make"], CATALOG, 4, "", ["pgshard: cannot write the output"]),
    (["serve", "--port", "1"], CATALOG, 4, "", []),
    (["serve", "--port", "1"], CATALOG, 4, "listening 1\n",
     ["pgshard: cannot write the output, or the listening socket failed"]),
    (["publish", "--port", "1"], CATALOG, 4, "", []),
    (["publish", "--port", "1"], CATALOG, 4, "listening 1\n", ["pgshard: cannot write the output"]),
    (["make"], CATALOG, 5, "o 0\nout of memory\n", ["pgshard: out of memory"]),
    (["nothing"], "", 2, "command line\nwhy\n", []),
]

# Certificates, and the position of the fault in each.
CERTIFICATES = [
    ("", 0), ("o", 1), ("o 0", 3), ("o 0 ", 3), ("o 01", 2), ("s 0 o 0 o 1", 11), ("s 0 o 0 o 1 n", 13), ("o 0 o 0", 3),
    ("x 0", 0), ("o  0", 2), ("s 0 o 0 o 1 n 0", 15),
]

# Runs in place of the program: writes what the environment says after its input has ended, or at once for --help.
PROGRAM = """\
#!/bin/sh
[ "$1" = --help ] || cat > /dev/null
printf '%s' "$WRITES"
exit $ENDS
"""

# Does the same for a table that is not sound.
ANSWERS = """\
#!/bin/sh
cat > /dev/null
case $1 in
    make) echo 'counter public.t (0, NULL, 5) owners none' ;;
    check) echo 'refused CertCount' ;;
esac
exit 1
"""


def check_pointing(tally: Tally) -> None:
    """Tests the messages, and then whole runs."""
    for words, text, status, output, expected in TOLD:
        data = text if isinstance(text, bytes) else text.encode()
        tally.check(f"what is told of {output!r}", explained(words, Source("f", data), status, output), expected)
    for line, place in CERTIFICATES:
        tally.check(f"where {line!r} stops being a certificate", place_of_fault(line), place)
    tally.check("the place of a node", place_of_node("s 12 o 0 o 1", 2), 9)
    with tempfile.TemporaryDirectory() as folder:
        path = pathlib.Path(folder)
        check_explain(tally, path)
        check_signals(tally, path)
        check_script(tally, path / "repository")
        check_judge_marks(tally, path)
    check_program(tally)
    check_refused(tally)


def check_explain(tally: Tally, folder: pathlib.Path) -> None:
    """Checks that explain keeps the output and status of a run, and need not wait for the input to end."""
    program, catalog = written(folder / "program", PROGRAM), folder / "catalog.sql"
    catalog.write_text(CATALOG)
    says = {"WRITES": "counter public.t (0, '', 5) owners none\n", "ENDS": "1"}
    sentence = "1:14: public.t: no subscriber gets the row (0, '', 5)\n"
    with open(catalog, "rb") as file:
        tally.check("a run on a file", explain(program, "make", stdin=file, **says), (
            1, says["WRITES"], f"catalog.sql:{sentence}"))
    tally.check("a run on a pipe", explain(program, "make", input=CATALOG, **says), (
        1, says["WRITES"], f"input:{sentence}"))
    long = "x" * 100_000
    tally.check("a long output", explain(program, "make", input="", WRITES=long, ENDS="0"), (0, long, ""))
    tally.check("an input that is not read", explain(program, "--help", input=long * 30, WRITES="help\n", ENDS="0"), (
        0, "help\n", ""))
    reader, writer = os.pipe()
    tally.check("an input that does not end", explain(program, "--help", stdin=reader, WRITES="help\n", ENDS="0"), (
        0, "help\n", ""))
    os.close(reader), os.close(writer)
    usage = explain("--help", input="", WRITES="", ENDS="")
    tally.check("the help of explain", (usage[0], "PROGRAM" in usage[1], usage[2]), (0, True, ""))
    tally.check("a program that does not exist", explain("./missing", "make", input="", WRITES="", ENDS=""), (
        2, "", "explain: there is no program ./missing\n"))


def check_signals(tally: Tally, folder: pathlib.Path) -> None:
    """Checks that the program gets a signal that asks explain to end, and that the status is that of its end."""
    program = written(folder / "sleeping", "#!/bin/sh\necho $$\nexec sleep 1000\n")
    for ending in signal.SIGTERM, signal.SIGHUP:
        with subprocess.Popen([TOOLS / "explain", program], stdin=subprocess.PIPE, stdout=subprocess.PIPE) as running:
            assert running.stdout is not None
            process = int(running.stdout.readline())
            running.send_signal(ending)
            tally.check(f"{ending.name} to explain", running.wait(120), 128 + ending)
            tally.check(f"the program after {ending.name}", pathlib.Path(f"/proc/{process}").exists(), False)


def explain(program: pathlib.Path | str, *words: str, WRITES: str, ENDS: str, **given) -> tuple[int, str, str]:
    """Runs tools/explain. Returns its status, output and messages."""
    environment = os.environ | {"WRITES": WRITES, "ENDS": ENDS}
    answer = subprocess.run(
        [TOOLS / "explain", program, *words], stdout=subprocess.PIPE, stderr=subprocess.PIPE, env=environment,
        encoding="utf-8", cwd=pathlib.Path(program).parent, timeout=300, **given)
    return answer.returncode, answer.stdout, answer.stderr


def check_script(tally: Tally, root: pathlib.Path) -> None:
    """Tests the script pgshard in an installed copy: messages are written only to a terminal, and name the files."""
    installed(root, PROGRAM)
    (root / "catalog").write_text("CREATE\n")
    (root / "certificates").write_text("o 0\no x\n")
    environment = os.environ | {"WRITES": "input\n", "ENDS": "3"}
    sentence = "pgshard: make reads a catalog and nothing else; the input has 2 parts, separated by lines %%\n"
    for is_terminal in True, False:
        found = at_terminal([root / "pgshard", "make"], b"%%\n", environment) if is_terminal else (
            by_pipes([root / "pgshard", "make"], b"%%\n", environment))
        told = sentence if is_terminal else ""
        tally.check(f"the script, {'at a terminal' if is_terminal else 'by pipes'}", found, (3, "input\n", told))
    files, says_of_second = [root / "catalog", root / "certificates"], "certificate 2 BadToken\n"
    for words, given in ([files[0], files[1]], b""), ([files[0], "-"], b"o 0\no x\n"), ([files[0]], b""):
        says = "catalog 0 Expected\n" if len(words) == 1 else says_of_second
        name = f"{files[0]}:1:1" if len(words) == 1 else f"{'input' if words[1] == '-' else words[1]}:2:3"
        _, _, told = at_terminal([root / "pgshard", "check", *words], given, environment | {"WRITES": says})
        tally.check(f"where a fault of {len(words)} files is", told.partition(": ")[0], name)
    publish = [root / "pgshard", "publish", *files]
    _, _, told = at_terminal(publish, b"VIEW;\n", environment | {"WRITES": says_of_second})
    tally.check("where a fault of a file of publish is", told.partition(": ")[0], f"{files[1]}:2:3")
    closed = ["sh", "-c", 'exec "$@" <&-', "sh", root / "pgshard", "make"]
    status, output, told = at_terminal(closed, b"", environment)
    tally.check("no standard input at a terminal", (status, output, "Traceback" in told), (3, "input\n", False))


def check_refused(tally: Tally) -> None:
    """Tests runs whose output cannot be written, that have a standard file closed, or that are refused memory: the
    status is that of the program alone."""
    alone, explained_run = [PGSHARD, "make"], [TOOLS / "explain", PGSHARD, "make"]
    with full_device() as full:
        for words in ("make",), ("check",), ("--help",) if full is not None else ():
            answer = subprocess.run(
                [TOOLS / "explain", PGSHARD, *words], input=CATALOG.encode(), stdout=full, stderr=subprocess.PIPE)
            tally.check(f"an output of {words[0]} that is full", (answer.returncode, answer.stderr), (
                4, b"pgshard: cannot write the output\n"))
    for closed in 0, 1, 2:
        found = [without(closed, command) for command in (explained_run, alone)]
        tally.check(f"a run without file {closed}", found[0], found[1])
    variables = dict(os.environ)
    with tempfile.NamedTemporaryFile("w") as file:
        file.write(CATALOG.replace("region < 5", "region < 6"))
        file.flush()
        for limit in LIMITS:
            if status_within(limit, [sys.executable, "-c", ""], variables) == 0:
                for given in "<", "cat":
                    shell = f'"$@" < {file.name}' if given == "<" else f'cat {file.name} | "$@"'
                    command = ["sh", "-c", shell, "sh", sys.executable, *explained_run]
                    tally.check(f"{given} with {limit} kB", status_within(limit, command, variables), 1)


def without(closed: int, command: list) -> tuple[int, bytes, bytes]:
    """Returns the status, the output and standard error of a run in which a file is closed."""
    with tempfile.NamedTemporaryFile("w") as file:
        file.write(CATALOG)
        file.flush()
        with open(file.name, "rb") as given:
            answer = subprocess.run(command, stdin=given, stdout=subprocess.PIPE, stderr=subprocess.PIPE,
                                    preexec_fn=lambda: os.close(closed))
    return answer.returncode, answer.stdout, answer.stderr


def check_judge_marks(tally: Tally, folder: pathlib.Path) -> None:
    """Checks that judge points into a file if standard error is a terminal."""
    program, catalog = written(folder / "made", PROGRAM), folder / "judged.sql"
    catalog.write_text(CATALOG)
    environment = os.environ | {"PGSHARD": str(program), "WRITES": "catalog 13 TypeClash\n", "ENDS": "3"}
    status, _, told = at_terminal([TOOLS / "judge", catalog], b"", environment)
    tally.check("a file that judge does not read", (status, told), (
        3, f"{catalog}:1:14: the types in this expression do not match: t\n"))
    answers = folder / "answers"
    written(answers, ANSWERS)
    status, output, told = at_terminal([TOOLS / "judge", catalog], b"", environment | {"PGSHARD": str(answers)})
    tally.check("a file that is not sound", (status, told), (
        1, f"{catalog}:1:14: public.t: NOT SOUND: the row (0, NULL, 5) goes to no subscriber\n"))
    piped = by_pipes([TOOLS / "judge", catalog], b"", environment | {"PGSHARD": str(answers)})
    tally.check("the same by pipes", piped, (1, output, ""))


def check_program(tally: Tally) -> None:
    """Tests runs of pgshard itself."""
    cases = [
        (["make"], CATALOG.replace("region < 5", "region < 6"), 1, "1:14: public.t: s and u get the row"),
        (["make"], CATALOG.replace("PUBLICATION p;", "PUBLICATION r;"), 3, "6:49: this name does not exist: r\n"),
        (["show"], CATALOG.replace("PUBLICATION p;", "PUBLICATION r;"), 3, "6:49: this name does not exist: r\n"),
        (["eval", "t"], f"{CATALOG}%%\n(1, 'ä', 7)\n(1, 'ä', 3000000000)\n", 1,
         f"{LINES + 3}:10: region: the number is out of range"),
        (["simulate"], f"{CATALOG}%%\no 0\n%%\nVIEW;\n  PUMP;\n", 3,
         f"{LINES + 5}:7: syntax error: ;\n"),
    ]
    for words, text, status, begin in cases:
        answer = subprocess.run(
            [TOOLS / "explain", PGSHARD, *words], input=text.encode(), stdout=subprocess.PIPE, stderr=subprocess.PIPE)
        told = answer.stderr.decode().removeprefix("input:")
        tally.check(f"what is told of {words[0]}", (answer.returncode, told[:len(begin)]), (status, begin))


def at_terminal(command: list, given: bytes, environment: dict[str, str]) -> tuple[int, str, str]:
    """Runs a command whose standard error is a terminal. Returns its status, its output and what it wrote there."""
    leader, follower = os.openpty()
    try:
        answer = subprocess.run(
            command, input=given, stdout=subprocess.PIPE, stderr=follower, env=environment, timeout=300)
        os.close(follower)
        return answer.returncode, answer.stdout.decode(), read_all(leader).decode().replace("\r\n", "\n")
    finally:
        os.close(leader)


def read_all(terminal: int) -> bytes:
    """Reads what was written to a terminal until its other end is closed."""
    found = b""
    while True:
        try:
            piece = os.read(terminal, 65_536)
        except OSError:
            return found
        if not piece:
            return found
        found += piece


def by_pipes(command: list, given: bytes, environment: dict[str, str]) -> tuple[int, str, str]:
    """Runs a command whose standard error is a pipe."""
    answer = subprocess.run(
        command, input=given, stdout=subprocess.PIPE, stderr=subprocess.PIPE, env=environment, timeout=300)
    return answer.returncode, answer.stdout.decode(), answer.stderr.decode()


def written(path: pathlib.Path, text: str) -> pathlib.Path:
    """Writes an executable script."""
    path.write_text(text)
    path.chmod(0o755)
    return path
