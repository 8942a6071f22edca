"""Runs catalog.sql, pgshard and judge."""

import functools
import os
import pathlib
import subprocess

from server import environment

TOOLS = pathlib.Path(__file__).resolve().parent.parent
PGSHARD = os.environ.get("PGSHARD") or str(TOOLS.parent / "pgshard")


@functools.cache
def why_unusable() -> str | None:
    """Returns why the program cannot be run, or None. If PGSHARD is not set, the script proves and builds the program
    here."""
    try:
        ended = subprocess.run([PGSHARD, "--version"], stdin=subprocess.DEVNULL, stdout=subprocess.DEVNULL)
    except OSError as fault:
        return str(fault)
    return f"{PGSHARD} --version ended with status {ended.returncode}" if ended.returncode else None


def prepare() -> None:
    """Makes sure that the program can be run, so that no run with a time limit has to build it first."""
    why = why_unusable()
    if why is not None:
        raise RuntimeError(f"the program cannot be run: {why}")


def program() -> str:
    """Returns the path of the program: the one that PGSHARD names at present, or the one that the script runs."""
    return os.environ.get("PGSHARD") or program_of_script()


@functools.cache
def program_of_script() -> str:
    """Returns the path of the program that the script runs."""
    return subprocess.run([PGSHARD, "--program"], stdout=subprocess.PIPE, encoding="utf-8", check=True).stdout.strip()


def catalog_of(server, database, *words):
    """Returns what catalog.sql prints of a database, with additional arguments for psql."""
    script = TOOLS / "catalog.sql"
    answer = subprocess.run(
        ["psql", *server.words(database), *words, "-f", script],
        stdout=subprocess.PIPE, encoding="utf-8", check=True, env=environment())
    return answer.stdout


def pgshard(*words: str, text: str | bytes, seconds: int | None = None) -> tuple[int | None, str]:
    """Returns the status and the output of a run. Its input is a text, or bytes that need not be UTF-8."""
    given = text if isinstance(text, bytes) else text.encode()
    try:
        answer = subprocess.run([PGSHARD, *words], input=given, stdout=subprocess.PIPE, timeout=seconds)
    except subprocess.TimeoutExpired:
        return None, f"no end within {seconds} seconds\n"
    return answer.returncode, decoded(answer.stdout)


def decoded(output: bytes) -> str:
    """Returns an output as text. If it is not UTF-8, returns its hexadecimal digits, which match no expected text."""
    try:
        return output.decode()
    except UnicodeDecodeError:
        return f"not UTF-8: {output.hex()}\n"


def judge(*words, program=PGSHARD):
    """Returns what judge prints, with its status as the last line."""
    answer = subprocess.run(
        [TOOLS / "judge", *patience(words), *words],
        stdout=subprocess.PIPE, stderr=subprocess.STDOUT, encoding="utf-8", env=environment() | {"PGSHARD": program})
    return f"{answer.stdout}status {answer.returncode}\n"


def patience(words):
    """Gives judge more time than its default, so that a busy machine changes no answer."""
    return () if "--seconds" in words else ("--seconds", "300")


def without_subscriptions(catalog):
    """Returns the part of a catalog from which another database can be created: a subscription would connect."""
    return catalog.split("CREATE SUBSCRIPTION ")[0]
