"""Usage errors, help and versions.

An empty command line, which lacks even the program's name, is tested in crates/program_tests.
"""

from collections.abc import Iterator
from pathlib import Path

from .case import Case, Outline
from .catalogs import BASE

VERSION = (Path(__file__).resolve().parents[3] / "VERSION").read_text(encoding="utf-8").strip()

REFUSED: list[tuple[str, ...]] = [
    (),
    ("eval",),
    ("t",),
    ("evil", "t"),
    ("eval", "t", "u"),
    ("eval", "--insert"),
    ("eval", "t", "--insert", "--insert"),
    ("eval", "t", "--insert=yes"),
    ("eval", "t", "--Insert"),
    ("check", "t"),
    ("check", "check"),
    ("check", "--insert"),
    ("check", "--show", "--show"),
    ("show", "t"),
    ("show", "--show"),
    ("Check",),
    ("simulate", "t"),
    ("simulate", "--limit"),
]

# Invalid values of options, and what each option takes.
WRONG_VALUES: list[tuple[tuple[str, ...], str]] = [
    *((("simulate", "--limit", limit), f"--limit takes 1 to 1000000000, not {limit}")
      for limit in ("0", "1000000001", "4294967297", "1e3")),
    (("serve", "--port", "0"), "--port takes 1 to 65535, not 0"),
    (("serve", "--port", "65536"), "--port takes 1 to 65535, not 65536"),
    (("serve", "--port", "5440", "--limit", "x"), "--limit takes 1 to 1000000000, not x"),
    (("serve", "--port", "5440", "--connections", "1001"), "--connections takes 1 to 1000, not 1001"),
    (("publish", "--port", "99999"), "--port takes 0 to 65535, not 99999"),
    (("publish", "--port", "0", "--commands", "65536"), "--commands takes 0 to 65535, not 65536"),
    *((("publish", "--port", "0", option, "86401"), f"{option} takes 1 to 86400, not 86401")
      for option in ("--start-timeout", "--write-timeout", "--keepalive", "--timeout")),
    (("publish", "--port", "0", "--log", "xml"), "--log takes text or json"),
]

# Words that request help, and a part of the help.
HELP: list[tuple[tuple[str, ...], str]] = [
    (("--help",), f"pgshard {VERSION}"),
    (("--help",), "standard input"),
    (("--help",), "separated by lines that are exactly %%"),
    (("--help",), "\n  eval             a catalog, rows\n"),
    (("--help",), "\n  check            a catalog, certificates\n"),
    (("--help",), "\n  make, show       a catalog\n"),
    (("--help",), "\n  publish          a catalog, certificates, commands\n"),
    (("--help",), "\n  0  "),
    (("--help",), "\n  1  "),
    (("--help",), "\n  2  "),
    (("--help",), "\n  3  "),
    (("--help",), "\n  4  "),
    (("--help",), "\n  5  "),
    (("-h",), "Exit status"),
    (("eval", "--help"), "reads a catalog and rows"),
    (("eval", "t", "-h"), "--insert"),
    (("check", "--help"), "reads a catalog and certificates"),
    (("check", "--help"), "--show"),
    (("show", "--help"), "as SQL"),
    (("make", "--help"), "reads a catalog"),
    (("--help",), "\n  simulate, serve  a catalog, certificates, a script\n"),
    (("--help",), "\n  serve "),
    (("--help",), "and serves subscribers over sockets"),
    (("--help",), "\n  publish "),
    (("publish", "--help"), "--port-file <FILE>"),
    (("simulate", "--help"), "--limit <N>"),
    (("help",), "standard input"),
]

VERSIONS: list[tuple[tuple[str, ...], str]] = [
    (("--version",), f"pgshard {VERSION}\n"),
    (("-V",), f"pgshard {VERSION}\n"),
    (("eval", "--version"), f"pgshard-eval {VERSION}\n"),
    (("serve", "--version"), f"pgshard-serve {VERSION}\n"),
    (("publish", "--version"), f"pgshard-publish {VERSION}\n"),
]


def cases() -> Iterator[Case]:
    """Yields a run for each."""
    refused = Outline(begin="command line\nerror: ", end="try '--help'.\n")
    for words in REFUSED:
        yield Case(f"the words {words} are refused", words, BASE, 2, refused)
    for words, said in WRONG_VALUES:
        expected = f"command line\nerror: {said}\n\nFor more information, try '--help'.\n"
        yield Case(f"the words {words} are refused", words, BASE, 2, expected)
    for words, part in HELP:
        yield Case(f"the words {words} have {part!r} shown", words, BASE, 0, Outline(within=part))
    for words, expected in VERSIONS:
        yield Case(f"the words {words} have the version shown", words, "", 0, expected)
