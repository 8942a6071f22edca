"""Filters of eval at their limits, with ample memory: as many atoms, nodes and constants as a table may have. The
expected line of each row is computed by the model."""

from collections.abc import Iterator
from itertools import count, cycle, islice

from model.catalogs import Catalog, Column, Filter, Publication, Row, Table
from model.passing import eval_line
from model.showing import text_of
from model.values import written

from .case import Case, two_parts

# The most atoms and nodes that the filters of a table may have, and the most constants of a list.
ATOMS, NODES, ENTRIES = 64, 1_000, 100

# The number of remainders that have a filter each.
REMAINDERS = 60

# The number of rows. Hardly any two of them have the same answer.
ROWS = 2_000

TABLE = Table("public", "t", (Column("k", "bigint", True), Column("n", "bigint", False)), (0,))


def cases() -> Iterator[Case]:
    """Yields a run for each limit, also with --insert."""
    filters = {
        "64 atoms": atoms(),
        "1,000 nodes": [nodes()],
        "60 lists of remainders": lists(),
        "60 lists of large remainders": lists(1_000_000),
        "60 lists": keys(),
    }
    for name, conditions in filters.items():
        publications = tuple(Publication(f"p{number}", ((0, it),)) for number, it in enumerate(conditions))
        catalog = Catalog((TABLE,), publications)
        for words, is_insert in ((), False), (("--insert",), True):
            yield run(name, catalog, words, is_insert)


def run(name: str, catalog: Catalog, words: tuple[str, ...], is_insert: bool) -> Case:
    """Returns a run on rows for which the model gives the lines."""
    given = list(rows())
    text = "".join(f"({', '.join(written(it) for it in row)})\n" for row in given)
    lines = "".join(f"{eval_line(catalog, 0, row, is_insert)}\n" for row in given)
    named = " ".join(("eval by", name, *words))
    return Case(named, ("eval", "t", *words), two_parts(text_of(catalog), text), 0, lines)


def rows() -> Iterator[Row]:
    """Yields rows with small and large keys of both signs, including the least that can be read and the greatest, and a
    number or null."""
    ends = (0, -1, 1, -2**63 + 1, 2**63 - 1, -2**63 + 2, 2**63 - 2)
    keys = [*ends, *((-1) ** at * 48_271**(1 + at % 4) * (at + 1) % 2**62 for at in range(ROWS))]
    for at, key in enumerate(dict.fromkeys(keys)):
        yield key, None if at % 17 == 0 else key // 3 % 1_000 - 500


def primes(least: int) -> Iterator[int]:
    """Yields the prime numbers from a number on."""
    return (it for it in count(least) if all(it % one for one in range(2, int(it**0.5) + 1)))


def remainders(column: int, number: int) -> list[Filter]:
    """Returns filters on the remainders by this many primes; half of the remainders are below a bound."""
    return [("cmp", column, it, "<", it // 2) for it in islice(primes(3), number)]


def atoms() -> list[Filter]:
    """Returns the greatest number of filters of one atom each; half of the atoms may be null."""
    return [*remainders(0, ATOMS // 2), *remainders(1, ATOMS // 2)]


def nodes() -> Filter:
    """Returns a filter with the greatest number of nodes: 500 atoms, of which 64 are different, layers of AND and OR,
    and a NOT."""
    own, heads = atoms(), cycle(("and", "or", "or", "and"))
    layer: list[Filter] = [own[at * 29 % ATOMS] for at in range(NODES // 2)]
    while len(layer) > 1:
        head = next(heads)
        pairs = [(head, *layer[at:at + 2]) for at in range(0, len(layer) - 1, 2)]
        layer = [*pairs, *layer[2 * len(pairs):]]
    return ("not", layer[0])


def lists(least: int = 211) -> list[Filter]:
    """Returns lists of remainders with the greatest number of constants, each list for another remainder."""
    divisors = islice(primes(least), REMAINDERS)
    return [("in", 0, it, tuple(sorted({at * 37 % it for at in range(ENTRIES)}))) for it in divisors]


def keys() -> list[Filter]:
    """Returns lists of the keys themselves."""
    given = [row[0] for row in rows()]
    return [("in", 0, 0, tuple(sorted(given[at::REMAINDERS][:ENTRIES]))) for at in range(REMAINDERS)]
