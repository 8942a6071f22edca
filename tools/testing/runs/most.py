"""Catalogs and scripts with the greatest number of each thing, and with one more."""

from collections.abc import Callable, Iterator

from .case import LONG_SECONDS, Case, two_parts
from .catalogs import halves
from .simulations import three_parts

T = "CREATE TABLE t (id integer PRIMARY KEY, region text);\n"
P = "CREATE PUBLICATION p;\n"
MOST_STEPS = 100_000


def statements(before: str, each: str) -> Callable[[int], str]:
    """Returns a function that makes this many statements, numbered from 0."""
    return lambda number: before + "".join(f"{each.format(at)}\n" for at in range(number))


def condition(text: str) -> str:
    """Returns a publication with a filter."""
    return f"{T}CREATE PUBLICATION p FOR TABLE t WHERE ({text});\n"


def atoms(number: int) -> str:
    """Returns this many comparisons, in two publications."""
    first = " OR ".join(f"id = {at}" for at in range(32))
    second = " OR ".join(f"id = {at}" for at in range(32, number))
    return f"{condition(first)}CREATE PUBLICATION q FOR TABLE t WHERE ({second});\n"


def nodes(number: int) -> str:
    """Returns a filter of this many nodes: truth values, connectives, and NOT if the number is even."""
    joined = " OR ".join(["FALSE"] * ((number + 1) // 2))
    return condition(joined if number % 2 else f"NOT ({joined})")


def entries(number: int) -> str:
    """Returns a list of this many numbers, the last of which differs."""
    return condition(f"id IN ({'7, ' * (number - 1)}8)")


# What is counted, a catalog with a given number of it, the greatest number, what eval prints for a row then, the text
# at the fault in the last line if there is one more, and the kind of the fault.
THINGS: list[tuple[str, Callable[[int], str], int, str, str, str]] = [
    ("tables", statements("", T.replace(" t ", " t{} ").strip()), 64, "", "t64", "TooMany"),
    ("unique indexes", statements(T, "CREATE UNIQUE INDEX i{} ON t (id);"), 8, "", "i8", "TooMany"),
    (
        "publications", statements(T, "CREATE PUBLICATION p{} FOR TABLE t;"), 64,
        " ".join(f"p{at}=all" for at in range(64)), "p64", "TooMany",
    ),
    (
        "subscriptions", statements(T + P, "CREATE SUBSCRIPTION s{} CONNECTION '' PUBLICATION p;"), 32, "", "s32",
        "TooMany",
    ),
    ("atoms", atoms, 64, "p=true q=false", "WHERE", "TooMany"),
    ("nodes", nodes, 1_000, "p=true", "WHERE", "TooMany"),
    ("entries of a list", entries, 100, "p=false", "8", "TooMany"),
    ("parentheses", lambda most: condition("(" * most + "TRUE" + ")" * most), 64, "p=true", "(TRUE", "TooDeep"),
    ("bytes of a name", lambda most: f"{T}CREATE PUBLICATION {'p' * most};\n", 63, "", "ppp", "NameTooLong"),
    ("bytes of a text", lambda most: condition(f"region = '{'x' * most}'"), 65_535, "p=null", "'", "TooMany"),
]


def cases() -> Iterator[Case]:
    """Yields two runs for each."""
    for thing, catalog, most, line, there, kind in THINGS:
        row = "(1, NULL)"
        words, text = ("eval", "t1" if thing == "tables" else "t"), two_parts(catalog(most), row)
        yield Case(f"as many {thing} as there may be", words, text, 0, f"{line}\n")
        longer = catalog(most + 1)
        place = longer.index(there, longer.rindex("\n", 0, len(longer) - 1))
        yield Case(f"one more of {thing}", words, two_parts(longer, row), 3, f"catalog {place} {kind}\n")
    yield from steps()


def steps() -> Iterator[Case]:
    """Yields a script that is as long as allowed, and one that is longer."""
    catalog, script = halves("", " WHERE (FALSE)"), "TAKE 0;\n" * MOST_STEPS
    answers = "not open\n" * MOST_STEPS
    text = three_parts(catalog, "o 0\n", script)
    yield Case("as many steps as there may be", ("simulate",), text, 0, answers, LONG_SECONDS)
    longer = three_parts(catalog, "o 0\n", f"{script}TAKE 0;")
    yield Case("one more step", ("simulate",), longer, 3, f"script {len(script)} TooMany\n")
