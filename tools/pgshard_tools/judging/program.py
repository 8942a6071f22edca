"""Runs pgshard, and reads its answers."""

import functools
import os
import re
import subprocess
from collections.abc import Iterable, Sequence
from dataclasses import dataclass

from pgshard_tools.installation import script
from pgshard_tools.judging import timing
from pgshard_tools.judging.faults import NO_PROGRAM, Fault

VALUE = r"(?:NULL|TRUE|FALSE|-?\d+|'(?:[^']|'')*')"
ROW = rf"\({VALUE}(?:, {VALUE})*\)"
CERTIFICATE = r"[soen] \d+(?: [soen] \d+)*"


@dataclass
class Unreadable:
    """A fault of the text, with its position in bytes."""

    part: str
    place: int
    kind: str


def program() -> str:
    """Returns the program: the one that the environment names, or the one that the script pgshard would run."""
    return os.environ.get("PGSHARD") or program_of_script()


@functools.cache
def program_of_script() -> str:
    """Returns the released program, or the one that was proved here. This never builds it."""
    command = script()
    try:
        answer = subprocess.run([command, "--program"], capture_output=True, encoding="utf-8")
    except FileNotFoundError as fault:
        raise Fault(
            NO_PROGRAM, "the command pgshard is not found; the environment variable PGSHARD may name it") from fault
    except OSError as fault:
        raise Fault(NO_PROGRAM, f"cannot run {command}: {fault}") from fault
    if answer.returncode != 0:
        raise Fault(NO_PROGRAM, answer.stderr.strip().removeprefix("pgshard: "))
    return answer.stdout.removesuffix("\n")


def run(subcommand: str, text: str) -> str | Unreadable:
    """Returns the output of a run that reached an answer, or Unreadable."""
    status, data = answer_of(subcommand, text.encode("utf-8", "surrogateescape"))
    output = data.decode("utf-8", "surrogateescape")
    if status == 3:
        word, *rest = output.split()
        return Unreadable(word, int(rest[0]) if rest and rest[0].isdigit() else 0, rest[-1] if rest else "")
    if status not in (0, 1):
        raise Fault(NO_PROGRAM, f"pgshard {subcommand} ended with status {status}: {output.strip()}")
    return output


def answer_of(subcommand: str, data: bytes) -> tuple[int, bytes]:
    """Returns the status and the output of a run, whose time counts for the table. An exception also ends the run."""
    try:
        process = subprocess.Popen([program(), subcommand], stdin=subprocess.PIPE, stdout=subprocess.PIPE)
    except OSError as fault:
        raise Fault(NO_PROGRAM, f"cannot run pgshard: {fault}") from fault
    with process, timing.counted(process.pid):
        try:
            output, _ = process.communicate(data)
        except BaseException:
            process.kill()
            raise
    return process.returncode, output


def one_of(names: Iterable[str]) -> str:
    """Returns a pattern that matches one of some names, the longest possible."""
    return "(?:" + "|".join(re.escape(it) for it in sorted(names, key=len, reverse=True)) + ")"


@dataclass
class Made:
    """The answer of `pgshard make` for a table: a certificate, a row with the subscribers that get it, or a word."""

    certificate: str | None
    row: list[str] | None
    owners: list[str]
    word: str


def made_of(output: str, at: int, table: str, subscribers: Sequence[str]) -> tuple[Made, int]:
    """Returns the answer for the table at a place of the output, and where it ends. Rows and names may contain
    newlines."""
    name, one = re.escape(table), one_of(subscribers)
    found = re.compile(
        rf"(?:(?P<certificate>{CERTIFICATE})"
        rf"|counter {name} (?P<row>{ROW}) owners (?:none|(?P<owners>{one}(?:,{one})+))"
        rf"|(?P<word>unknown|too large) {name})\n").match(output, at)
    if found is None:
        raise Fault(NO_PROGRAM, f"unexpected output of pgshard make for {table}: {output[at:at + 200]}")
    row = re.findall(VALUE, found["row"]) if found["row"] else None
    owners = re.findall(one, found["owners"]) if found["owners"] else []
    return Made(found["certificate"], row, owners, found["word"] or ""), found.end()


def checked(catalog: str, certificates: Iterable[str]) -> str | Unreadable:
    """Returns the answer of `pgshard check`."""
    text = "".join([catalog, "\n%%\n", *(f"{certificate}\n" for certificate in certificates)])
    return run("check", text)
