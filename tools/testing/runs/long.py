"""Long inputs that have to be processed quickly: many commits, many rows of a table, many rows that are read, also with
many lists and remainders, many commits of many tables, and many leaves of a certificate below many lists. Runs of many
steps and of many nodes are in most.py and limits.py."""

from collections.abc import Callable, Iterator
from itertools import count, islice

from .case import ACCEPTED, LONG_SECONDS, Case, two_parts
from .catalogs import C, halves
from .checks import HIGH, LOW
from .inputs import MAX_INPUT
from .limits import catalog_of_remainders, inserts, tree_of_remainders
from .simulations import end_of, text_of, three_parts

COMMITS = 99_000
ROWS = 150_000
READ_ROWS = 700_000
ROWS_OF_TABLES = 40_000
TABLES, SUBSCRIBERS = 64, 32

# The most commands of a commit.
COMMANDS = 1_000

# Lists that together contain all numbers below 6,000, and the range of the numbers that are read.
EVAL_LISTS, EVAL_ENTRIES = 60, 100
EVAL_NUMBERS = 9_000

# How many seconds of processor time eval may take on the longest input. It takes two to three on a quiet machine; if
# other work shares the caches, a processor second achieves less.
EVAL_SECONDS = 10

# Remainders by this many primes from the first one on, and the keys whose remainders are tested: hardly any two keys
# have the same answers.
PRIMES, FIRST_PRIME = 60, 211
LEAST_KEY, KEYS = 100_000, 900_000

# The number of leaves of a filter with alternating AND and OR, the number of different atoms among them, and the number
# of rows after which the rows repeat.
LEAVES, ATOMS, BLOCK = 500, 64, 5_000

# Lists that together contain all remainders by 2500, and how often their certificate splits below them.
LISTS, ENTRIES = 50, 100
FURTHER = 12

B = halves(LOW, HIGH, "flag boolean")


def cases() -> Iterator[Case]:
    """Yields a run of each kind."""
    keys = range(-COMMITS // 2, COMMITS // 2)
    commits = [f"INSERT t ({key}, NULL)" for key in keys]
    yield simulation("many commits", B, C, commits, 2)
    comes = [f"INSERT t ({key}, NULL)" for key in range(-ROWS // 2, ROWS // 2)]
    goes = [f"DELETE t ({key})" for key in range(-ROWS // 2, ROWS // 2)]
    commits = [", ".join(list[at:at + COMMANDS]) for list in (comes, goes) for at in range(0, ROWS, COMMANDS)]
    yield simulation("many rows of a table", B, C, commits, 2)
    yield reading()
    yield reading_by_lists()
    yield reading_by_remainders()
    yield inserts_by_remainders()
    yield reading_by_filter()
    commits = [inserts([(number % TABLES, number)]) for number in range(ROWS_OF_TABLES)]
    certificates = f"{tree_of_remainders()}\n" * TABLES
    yield simulation("many rows of many tables", catalog_of_remainders(), certificates, commits, SUBSCRIBERS)
    yield below_lists()


def simulation(name: str, catalog: str, certificates: str, commits: list[str], subscribers: int) -> Case:
    """Returns commits of these commands, whose changes all subscribers are sent after the last one."""
    script = "".join(f"COMMIT {it};\n" for it in commits)
    script += "".join(f"OPEN {at}; PUMP {at};\n" for at in range(subscribers))
    lines = [f"commit {number}" for number in range(1, len(commits) + 1)]
    lines += ["opened", f"at {end_of(len(commits))}"] * subscribers
    text = three_parts(catalog, certificates, script)
    return Case(f"simulate with {name}", ("simulate",), text, 0, text_of(lines), LONG_SECONDS)


def reading() -> Case:
    """Returns a run on rows below 100 and others."""
    rows = "".join(f"({key}, NULL)\n" for key in range(READ_ROWS))
    lines = ["pa=true pb=false"] * 100 + ["pa=false pb=true"] * (READ_ROWS - 100)
    return Case("eval of many rows", ("eval", "t"), two_parts(B, rows), 0, text_of(lines), EVAL_SECONDS)


def reading_by_lists() -> Case:
    """Returns a run on rows that a filter with many lists takes, and others."""
    listed = EVAL_LISTS * EVAL_ENTRIES
    lists = [f"n IN ({', '.join(map(str, range(start, listed, EVAL_LISTS)))})" for start in range(EVAL_LISTS)]
    where = " OR ".join(lists)
    catalog = f"CREATE TABLE t (n integer PRIMARY KEY);\nCREATE PUBLICATION p FOR TABLE t WHERE ({where});\n"
    numbers = [number * 7 % EVAL_NUMBERS for number in range(READ_ROWS)]
    lines = [f"p={'true' if number < listed else 'false'}" for number in numbers]
    rows = "".join(f"({number})\n" for number in numbers)
    return Case("eval of many rows by lists", ("eval", "t"), two_parts(catalog, rows), 0, text_of(lines), EVAL_SECONDS)


def primes(least: int, number: int) -> list[int]:
    """Returns this many prime numbers from a number on."""
    found = (it for it in count(least) if all(it % one for one in range(2, int(it**0.5) + 1)))
    return list(islice(found, number))


def remainder_lists() -> list[tuple[int, set[int]]]:
    """Returns prime numbers, each with as many of its remainders as a list may have."""
    return [(it, {at * 37 % it for at in range(EVAL_ENTRIES)}) for it in primes(FIRST_PRIME, PRIMES)]


def rows_by_remainders(condition: str) -> tuple[str, list[int]]:
    """Returns an input as long as allowed, with one publication, by any of the lists and another condition, and the
    keys of its rows."""
    lists = [f"k % {prime} IN ({', '.join(map(str, sorted(entries)))})" for prime, entries in remainder_lists()]
    where = f"({' OR '.join(lists)}) AND {condition}"
    catalog = f"CREATE TABLE t (k bigint PRIMARY KEY);\nCREATE PUBLICATION p FOR TABLE t WHERE ({where});\n"
    number = (MAX_INPUT - len(two_parts(catalog, ""))) // len(f"({LEAST_KEY})\n")
    keys = [LEAST_KEY + at * 387_563 % KEYS for at in range(number)]
    return two_parts(catalog, "".join(f"({key})\n" for key in keys)), keys


def reading_by_remainders() -> Case:
    """Returns a run on the worst rows for the constants of many terms."""
    text, keys = rows_by_remainders("k > 0")
    lists = remainder_lists()
    lines = ["p=true" if any(key % prime in entries for prime, entries in lists) else "p=false" for key in keys]
    return Case("eval of many rows by remainders", ("eval", "t"), text, 0, text_of(lines), EVAL_SECONDS)


def inserts_by_remainders() -> Case:
    """Returns a run on the same rows, none of which is carried."""
    text, keys = rows_by_remainders("k < 0")
    lines = ["none"] * len(keys)
    return Case(
        "eval of many rows by remainders --insert", ("eval", "t", "--insert"), text, 0, text_of(lines), EVAL_SECONDS)


def alternating(numbers: list[int], is_or: bool = True) -> tuple[str, Callable[[list[bool]], bool]]:
    """Returns a filter of the atoms with these numbers, with alternating OR and AND, and its value given the values of
    all atoms."""
    if len(numbers) == 1:
        prime = primes(3, ATOMS)[numbers[0]]
        return f"k % {prime} < {prime // 2}", lambda values: values[numbers[0]]
    middle, combine = len(numbers) // 2, any if is_or else all
    sides = [alternating(it, not is_or) for it in (numbers[:middle], numbers[middle:])]
    text = f"({sides[0][0]} {'OR' if is_or else 'AND'} {sides[1][0]})"
    return text, lambda values: combine(value(values) for _, value in sides)


def reading_by_filter() -> Case:
    """Returns a run with a filter of many conditions, on rows that seldom have the same values: the rows for which a
    filter takes longest."""
    where, value = alternating([at * 29 % ATOMS for at in range(LEAVES)])
    catalog = f"CREATE TABLE t (k bigint PRIMARY KEY);\nCREATE PUBLICATION p FOR TABLE t WHERE ({where});\n"
    keys = [LEAST_KEY + at * 387_563 % KEYS for at in range(BLOCK)]
    times = (MAX_INPUT - len(two_parts(catalog, ""))) // (BLOCK * len(f"({LEAST_KEY})\n"))
    moduli = primes(3, ATOMS)
    answers = [value([key % it < it // 2 for it in moduli]) for key in keys]
    text = two_parts(catalog, "".join(f"({key})\n" for key in keys) * times)
    lines = text_of([f"p={'true' if it else 'false'}" for it in answers]) * times
    return Case("eval of many rows by a filter of many atoms", ("eval", "t"), text, 0, lines, LONG_SECONDS)


def below_lists() -> Case:
    """Returns a certificate in which each list is false, and which then splits by atoms that add no information:
    797,314 nodes, of which 531,441 say that no remainder is left."""
    starts = range(-ENTRIES * LISTS // 2, ENTRIES * LISTS // 2, ENTRIES)
    lists = [f"n % 2500 IN ({', '.join(map(str, range(start, start + ENTRIES)))})" for start in starts]
    others = " OR ".join(f"n = {at}" for at in range(FURTHER))
    catalog = (
        "CREATE TABLE t (n bigint PRIMARY KEY);\n"
        f"CREATE PUBLICATION p FOR TABLE t WHERE ({' OR '.join(lists)});\n"
        f"CREATE PUBLICATION q FOR TABLE t WHERE (({others}) AND n % 1 = 1);\n"
        "CREATE SUBSCRIPTION a CONNECTION '' PUBLICATION p;\nCREATE SUBSCRIPTION b CONNECTION '' PUBLICATION q;\n"
    )
    tree = "e 0"
    for atom in reversed(range(LISTS, LISTS + FURTHER)):
        tree = f"s {atom} {tree} {tree} {tree}"
    for atom in reversed(range(LISTS)):
        tree = f"s {atom} o 0 {tree} n {atom}"
    last = LISTS + FURTHER
    text = two_parts(catalog, f"s {last} e 2 {tree} n {last}\n")
    return Case("check of many leaves below lists", ("check",), text, 0, ACCEPTED, LONG_SECONDS)
