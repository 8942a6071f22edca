"""Judges a schema file, as written by pg_dump or contained in migrations: a temporary server loads it, and is
judged."""

import contextlib
import os
import re
import subprocess
from collections.abc import Iterator, Sequence
from dataclasses import replace

from pgshard_tools.judging import throwaway
from pgshard_tools.judging.catalog_files import connecting, read_file, why_not_read
from pgshard_tools.judging.catalog_tokens import statements_of, stored
from pgshard_tools.judging.faults import NO_ANSWER, NOT_READ, Fault
from pgshard_tools.judging.options import Options
from pgshard_tools.judging.program import Unreadable, run

PUBLICATION = re.compile(r"\bCREATE\s+PUBLICATION\b", re.I)
CONNECTS = re.compile(r"\bALTER\s+SUBSCRIPTION\s+\S+\s+(?:REFRESH|ADD|DROP|ENABLE|SET\s+PUBLICATION)\b|"
                      r"\bDROP\s+SUBSCRIPTION\b", re.I)
# A dump of several databases, or of one by pg_dump -C, continues in another database than the one that is judged.
CONNECT = re.compile(r"^\\c(?:onnect)?\b", re.M)
# Lines of other versions of pg_dump that psql or the server may not know. They are blanked, so that positions stay
# right.
UNKNOWN = re.compile(r"^(?:\\(?:un)?restrict\b.*|SET transaction_timeout = .*;)$", re.M)
FAILED = re.compile(r"^psql:<stdin>:(\d+): (?:ERROR|FATAL): *(.*)", re.M | re.S)
NO_ROLE = re.compile(r'^role "(.*)" does not exist$', re.M)
ROLES_AFTER = {("OWNER", "TO"), ("FOR", "ROLE"), ("FOR", "USER")}
NO_ROLES = {"PUBLIC", "CURRENT_USER", "CURRENT_ROLE", "SESSION_USER"}
# Variables of psql that name another server, or change what the server is asked.
ELSEWHERE = (
    "PGHOST", "PGHOSTADDR", "PGPORT", "PGDATABASE", "PGUSER", "PGSERVICE", "PGOPTIONS", "PGTARGETSESSIONATTRS",
    "PGCLIENTENCODING")
TRIES = 20
MISSING = (
    "to read a schema, judge starts a server of its own, and the server programs of PostgreSQL 15 are not installed: "
    "on Debian 12 `apt-get install postgresql-15` installs them")


def is_schema(path: str) -> bool:
    """Returns whether a file is a schema, and not a catalog text of pgshard."""
    text = read_file(path)
    if connecting(text):
        return False
    made = run("make", text)
    if throwaway.programs() is None and isinstance(made, Unreadable):
        raise Fault(NOT_READ, f"{why_not_read(made, text)}\n{MISSING}")
    return isinstance(made, Unreadable) or PUBLICATION.search(text) is not None


@contextlib.contextmanager
def served(path: str, options: Options) -> Iterator[Options]:
    """Yields the options for judging the file, as a database of a server that is removed afterwards."""
    programs = throwaway.programs()
    if programs is None:
        raise Fault(NOT_READ, f"refused: {MISSING}")
    text = UNKNOWN.sub("", read_file(path))
    want_no_connection(path, text)
    for name in ELSEWHERE:
        os.environ.pop(name, None)
    roles, told = roles_of(text), None
    for _ in range(TRIES):
        with throwaway.server(programs) as words:
            told = loaded(path, text, roles, words)
            if told is None:
                yield replace(options, words=[*words, "-d", connection_to(path)])
                return
        # What the file created is gone with its server. So the next attempt begins by creating the missing role.
        missing = NO_ROLE.match(told[1])
        if missing is None:
            break
        roles.append(missing[1])
    assert told is not None
    raise Fault(NOT_READ, f"refused: {path}:{told[0]}: {indented(told[1])}")


def want_no_connection(path: str, text: str) -> None:
    """Refuses statements that would connect to another server or database."""
    connect = CONNECT.search(text)
    if connect:
        line = text.count("\n", 0, connect.start()) + 1
        raise Fault(NOT_READ, f"refused: {path}:{line}: judge reads one database; dump it with pg_dump, without -C")
    places = [*connecting(text), *(it.start() for it in CONNECTS.finditer(text))]
    if places:
        line = text.count("\n", 0, min(places)) + 1
        raise Fault(NOT_READ, f"refused: {path}:{line}: the subscription would connect to its publisher; judge reads "
                              "CREATE SUBSCRIPTION .. WITH (connect = false), as pg_dump writes it")


def roles_of(text: str) -> list[str]:
    """Returns the roles that a file names where pg_dump does, without those that it creates."""
    found: dict[str, bool] = {}
    created = set()
    for statement in statements_of(text):
        words = [it.upper() for it in statement]
        if words[:1] == ["CREATE"] and len(words) > 2 and words[1] in ("ROLE", "USER", "GROUP"):
            created.add(stored(statement[2]))
        grants = words[:1] in (["GRANT"], ["REVOKE"])
        for at in range(2, len(words)):
            is_named = (words[at - 2], words[at - 1]) in ROLES_AFTER or grants and words[at - 1] in ("TO", "FROM")
            if is_named and words[at] not in NO_ROLES:
                found[stored(statement[at])] = True
    return [it for it in found if it not in created and not it.startswith("pg_") and it != throwaway.ROLE]


def loaded(path: str, text: str, roles: Sequence[str], words: Sequence[str]) -> tuple[str, str] | None:
    """Loads a file into a new database. Returns the line and the message of what the server refuses, or None."""
    made = [f"CREATE ROLE {quoted_name(it)};" for it in roles]
    made.append(f"CREATE DATABASE {quoted_name(name_of(path))};")
    told = psql([*words, "-d", "postgres"], "\n".join(made))
    return told or psql([*words, "-d", connection_to(path)], text)


def psql(words: Sequence[str], text: str) -> tuple[str, str] | None:
    """Runs a text, up to the first statement that the server refuses."""
    try:
        answer = subprocess.run(
            ["psql", "-X", "-q", "-v", "ON_ERROR_STOP=1", *words, "-f", "-"], input=text, stdout=subprocess.DEVNULL,
            stderr=subprocess.PIPE, encoding="utf-8", errors="surrogateescape",
            env=os.environ | {"PGCLIENTENCODING": "UTF8", "LC_ALL": "C"})
    except OSError as fault:
        raise Fault(NO_ANSWER, f"cannot run psql: {fault}") from fault
    if answer.returncode == 0:
        return None
    failed = FAILED.search(answer.stderr)
    if failed is None:
        raise Fault(NO_ANSWER, f"psql ended with status {answer.returncode}: {answer.stderr.strip()}")
    return failed[1], failed[2].strip()


def name_of(path: str) -> str:
    """Returns the name of the database: that of the file, as far as it can be a name."""
    name = path if len(path.encode()) < 64 else os.path.basename(path)
    return name.encode()[:63].decode("utf-8", "ignore")


def connection_to(path: str) -> str:
    """Returns the connection string of the database."""
    escaped = name_of(path).replace("\\", "\\\\").replace("'", "\\'")
    return f"dbname='{escaped}'"


def quoted_name(name: str) -> str:
    """Returns a name in SQL."""
    doubled = name.replace('"', '""')
    return f'"{doubled}"'


def indented(text: str) -> str:
    """Returns a message whose later lines are indented."""
    return "\n    ".join(text.split("\n"))
