"""The command line of tools/judge: its own options, and psql's options for connecting."""

import argparse
from collections.abc import Sequence
from dataclasses import dataclass
from typing import Any, NoReturn

from pgshard_tools.installation import version
from pgshard_tools.judging.faults import BAD_COMMAND, Fault

VARIABLE = "subscriptions"
SECONDS = 10.0
MOST_SECONDS = 1_000_000
MOST_ROWS = 10_000

DESCRIPTION = """\
Reports for each published table whether every row that the server accepts goes to exactly one subscriber.

    pgshard judge [connection options]   judges what a running server publishes, for example: -h db1 -d shop
    pgshard judge FILE                   judges a schema file, such as pg_dump -s writes, on a temporary server, or a
                                         catalog text, which contains CREATE SUBSCRIPTION

A single argument that names an existing file is taken as that file. At a terminal, judge also prints the position of a
fault or a table in a file, as file:line:column: sentence.

Without --subscriber and -v, the subscribers are those that are connected, if the role may see them; otherwise each
publication counts as a subscriber. The environment variable PGSHARD names a program to use instead of the release."""

STATUSES = """\
exit status:
  0   every published table is sound
  1   a table is not sound, not decided or refused; nothing is published; a subscription is disabled, or a slot is
      missing or not used; with --strict, a filter fails at a row
  2   usage error, or a file cannot be read or written
  3   no table has status 1, but one is not read; or a schema, a catalog text or a file of --with is refused; or who
      subscribes cannot be determined
  4   no server of version 15 to 18 answers psql
  5   pgshard or pglast, PostgreSQL's parser for Python, is missing or fails, memory is refused, or judge itself fails
  6   the output is closed, or cannot be written

with --detailed-status, instead of 1, the first of these that applies:
  1   a table is not sound
  7   a table is refused
  8   a table is not decided
  10  with --strict, a filter fails at a row
  11  a subscription is disabled, or a slot is missing or not used
  3   a table is not read
  9   nothing is published

with --nagios, the first of these that applies:
  2   critical: a table is not sound or refused
  1   warning: a table is not decided; nothing is published; a subscription is disabled, or a slot is missing or not
      used; with --strict, a filter fails at a row
  3   unknown: a table is not read, or there is no judgement
  0   ok: every published table is sound"""


@dataclass
class Options:
    """What the command line requests. `words` are the arguments with which psql connects."""

    explain: bool
    all: bool
    json: bool
    strict: bool
    migration: str | None
    repair: list[str]
    keep: list[str]
    count: bool
    rows: int
    html: str | None
    detailed_status: bool
    nagios: bool
    prometheus: str | None
    seconds: float
    catalog: str | None
    subscriber: list[str]
    copied: list[str]
    partial: list[str]
    subscriptions: str | None
    intent: str | None
    databases: bool
    watch: float | None
    names: list[str]
    words: list[str]


class Parser(argparse.ArgumentParser):
    """Reports a usage error like any other fault of judge."""

    def error(self, message: str) -> NoReturn:
        raise Fault(BAD_COMMAND, f"{message}; --help lists the options")

    def _print_message(self, message: str, file: Any = None) -> None:
        """Prints the help or the version. Unlike argparse's own method, it ignores no failure."""
        print(message, end="", file=file)


def parser() -> Parser:
    """Returns the parser with all options. Short ones are psql's, so -h is a host."""
    found = Parser(
        prog="pgshard judge", description=DESCRIPTION, epilog=STATUSES, add_help=False, allow_abbrev=False,
        formatter_class=argparse.RawDescriptionHelpFormatter)
    found.add_argument("names", nargs="*", metavar="FILE | DBNAME [USERNAME]")
    add_options(found)
    add_connection(found)
    return found


def add_options(found: Parser) -> None:
    """Adds judge's own options."""
    own = found.add_argument_group("options")
    add_questions(own)
    add_repairs(own)
    add_counts(own)
    add_reports(own)
    own.add_argument("--catalog", metavar="TABLE", help=(
        "print only the catalog that judge passes to pgshard for the table"))
    own.add_argument("--version", action="version", version=f"judge (pgshard) {version()}")
    own.add_argument("--help", "-?", action="help", help="print this text, and exit")


def add_questions(own: argparse._ArgumentGroup) -> None:
    """Adds the options that say who subscribes, what is meant, and what counts as a fault."""
    own.add_argument("--explain", action="store_true", help=(
        "for each sound table, show which rows go to which subscriber"))
    own.add_argument("--subscriber", action="append", default=[], metavar="TEXT", help=(
        "read the subscriptions from a subscriber's database, given its connection string; may be repeated"))
    own.add_argument("-v", "--set", "--variable", action="append", default=[], dest="variables", metavar="NAME=VALUE",
                     help="subscriptions='london=europe tokyo=elsewhere,nowhere' lists the subscribers")
    own.add_argument("--copied", action="append", default=[], metavar="TABLE", help=(
        "every subscriber is meant to get every row of the table"))
    own.add_argument("--partial", action="append", default=[], metavar="TABLE", help=(
        "some rows of the table are meant to reach nobody; none may reach two subscribers"))
    own.add_argument("--intent", metavar="FILE", help=(
        "read the intentions from a TOML file: tables to copy, to publish in part or to skip, operations that are left "
        "out, subscribers"))
    own.add_argument("--strict", action="store_true", help=(
        "exit with status 1 if a filter fails at a row that a table may hold"))
    own.add_argument("--seconds", type=seconds, default=SECONDS, metavar="N", help=(
        f"limit the processor time for each table; a table that takes longer is not decided [default: {SECONDS:g}]"))


def add_repairs(own: argparse._ArgumentGroup) -> None:
    """Adds the options that try statements in a transaction that is rolled back."""
    own.add_argument("--with", dest="migration", metavar="FILE", help=(
        "run the statements of a migration in a transaction that is rolled back, judge what would be published then, "
        "and report which answers change"))
    own.add_argument("--repair", action="append", default=[], metavar="TABLE", help=(
        "print only statements that make the table sound, after trying them in a transaction that is rolled back"))
    own.add_argument("--keep", action="append", default=[], metavar="SUBSCRIBER", help=(
        "with --repair, the subscriber that keeps rows which several get; if repeated, earlier ones take precedence"))


def add_counts(own: argparse._ArgumentGroup) -> None:
    """Adds the options that count rows."""
    own.add_argument("--count", action="store_true", help=(
        "make the server count the rows that reach nobody or several subscribers now, in one query for each table"))
    own.add_argument("--rows", type=number_of_rows, default=0, metavar="N", help=(
        "do the same, and list the keys of N such rows"))


def add_reports(own: argparse._ArgumentGroup) -> None:
    """Adds the options that say in which form, about what and how often it reports."""
    own.add_argument("--html", metavar="FILE", help=(
        "also write a page with a map of who gets which rows, and the statements of --repair"))
    own.add_argument("--databases", action="store_true", help="judge every database of the server")
    own.add_argument("--watch", type=seconds, metavar="SECONDS", help=(
        "judge repeatedly, at this interval, and report what changes"))
    own.add_argument("--detailed-status", action="store_true", help=(
        "use a different exit status for each kind of answer"))
    own.add_argument("--prometheus", metavar="FILE", help="also write a metrics file for Prometheus to collect")
    own.add_argument("--all", action="store_true", help="list the tables that are not published")
    forms = own.add_mutually_exclusive_group()
    forms.add_argument("--json", action="store_true", help=(
        "print the answers as JSON; docs/OUTPUT.md documents its form"))
    forms.add_argument("--nagios", action="store_true", help=(
        "print one line with performance data, and exit with the status of a Nagios plugin"))


def add_connection(found: Parser) -> None:
    """Adds psql's connection options."""
    psql = found.add_argument_group("connection options, which are psql's")
    psql.add_argument("-d", "--dbname", help="the database, or a connection string")
    psql.add_argument("-h", "--host", help="the server's host, or the directory of its socket")
    psql.add_argument("-p", "--port", help="the server's port")
    psql.add_argument("-U", "--username", help="the role")
    psql.add_argument("-w", "--no-password", action="store_true", help="never ask for a password")
    psql.add_argument("-W", "--password", action="store_true", help="ask for a password")


def seconds(text: str) -> float:
    """Parses a positive time."""
    try:
        value = float(text)
    except ValueError:
        value = 0
    if not 0 < value < MOST_SECONDS:
        raise argparse.ArgumentTypeError(f"it takes seconds above 0 and below {MOST_SECONDS:,}, not {text}")
    return value


def number_of_rows(text: str) -> int:
    """Parses the number of rows of a table to list."""
    if not text.isdecimal() or not 0 < int(text) <= MOST_ROWS:
        raise argparse.ArgumentTypeError(f"it takes 1 to {MOST_ROWS:,}, not {text}")
    return int(text)


def options_of(words: Sequence[str]) -> Options:
    """Parses the options on a command line, which may be in any order."""
    found = parser().parse_intermixed_args(list(words))
    return Options(
        found.explain, found.all, found.json, found.strict, found.migration, found.repair, found.keep,
        found.count or found.rows > 0, found.rows, found.html, found.detailed_status, found.nagios,
        found.prometheus, found.seconds, found.catalog, found.subscriber, found.copied, found.partial,
        subscriptions_of(found.variables), found.intent, found.databases, found.watch,
        found.names, words_of(found))


def subscriptions_of(variables: Sequence[str]) -> str | None:
    """Returns the value of psql's variable, if it is not empty."""
    value = ""
    for variable in variables:
        name, _, value = variable.partition("=")
        if name != VARIABLE:
            raise Fault(BAD_COMMAND, f"-v {variable}: judge has no variable but {VARIABLE}")
    return value or None


def words_of(found: argparse.Namespace) -> list[str]:
    """Returns the arguments with which psql connects."""
    words = []
    for option, value in ("-d", found.dbname), ("-h", found.host), ("-p", found.port), ("-U", found.username):
        if value is not None:
            words += [option, value]
    words += ["-w"] if found.no_password else []
    words += ["-W"] if found.password else []
    # The first argument is a database, unless -d names one, and the next one a role.
    names = list(found.names)
    if names and found.dbname is None:
        words += ["-d", names.pop(0)]
    if names and found.username is None:
        words += ["-U", names.pop(0)]
    if names:
        raise Fault(BAD_COMMAND, f"unexpected argument {names[0]}; --help lists the options")
    return words
