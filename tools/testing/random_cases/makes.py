"""Cases of `make`. What it prints for each table is checked by `check`, by the model and with rows."""

import random
from collections import Counter
from collections.abc import Iterator

from model.catalogs import Catalog, Filter, Table
from model.certificates import Walk, catalog_refusal, nodes_of, reading_fault, table_refusal
from model.making import certificate, counter_row
from model.passing import WHOLE, owners, shares_of
from model.values import row_fault

from .case import Runner, parts, shown
from .catalog_texts import CatalogText
from .catalogs import CatalogMaker, broken, tables
from .checks import MOST_ATOMS
from .meeting import meet_catalog
from .reading_rows import read_row
from .row_values import Values

# The most nodes that the model examines.
MOST_NODES = 300
ROWS = 40


def case(chance: random.Random) -> "MadeCase":
    """Returns a catalog that is sound by construction, one that is broken, or an arbitrary one."""
    maker = CatalogMaker(chance, lines=False)
    number = tables(chance)
    if chance.random() < 0.7:
        catalog = maker.sound(number, chance.randint(1, 6), 2)
        if chance.random() < 0.5:
            catalog = broken(chance, catalog)
    else:
        catalog = maker.any(number, chance.randint(1, 5), chance.randint(1, 4))
    return MadeCase(chance, catalog)


class MadeCase:
    """A catalog that `make` reads."""

    def __init__(self, chance: random.Random, catalog: Catalog) -> None:
        self.chance = chance
        self.catalog = catalog
        self.met: Counter[str] = Counter()
        self.catalog_text = CatalogText(catalog, chance, False).text()
        meet_catalog(self.met, catalog)
        self.words: tuple[str, ...] = ("make",)
        self.text = self.catalog_text.encode()
        self.compared = 0

    def lines(self) -> int:
        """Returns how many lines were compared."""
        return self.compared

    def check(self, run: Runner) -> Iterator[str]:
        """Makes the runs, and yields what is wrong."""
        answer = run(self.words, self.text)
        lines = answer.output.split("\n")[:-1]
        if len(lines) != len(self.catalog.tables):
            yield f"{len(self.catalog.tables)} tables have the output {shown(answer.output)}"
            return
        for table, line in enumerate(lines):
            self.compared += 1
            yield from self.faults_of(table, line)
        certificates = [line for line in lines if is_certificate(line)]
        if answer.status != (0 if len(certificates) == len(lines) else 1):
            yield f"status {answer.status}"
        if len(certificates) == len(lines):
            yield from self.checked(run, answer.output)

    def checked(self, run: Runner, certificates: str) -> Iterator[str]:
        """Yields what `check` says of the certificates, if it is wrong."""
        answer = run(("check",), parts(self.catalog_text, certificates))
        refusal = catalog_refusal(self.catalog)
        expected = (0, "accepted\n") if refusal is None else (1, f"refused {refusal}\n")
        self.compared += 1
        self.met[f"check after make answers {expected[1].split(' ')[0].strip()}"] += 1
        if (answer.status, answer.output) != expected:
            yield f"check answers {answer.status} and {shown(answer.output)}, and not {expected}"

    def faults_of(self, table: int, line: str) -> Iterator[str]:
        """Yields what is wrong with the line of a table."""
        shares = shares_of(self.catalog, table)
        name = self.catalog.tables[table].full_name()
        truth = counter_row(self.catalog.tables[table], shares)
        if is_certificate(line):
            self.met["make finds a certificate"] += 1
            yield from self.certificate_faults(table, shares, line)
            if isinstance(truth, tuple):
                yield f"{name} has a certificate, and {truth} goes to {owners(shares, truth)}"
        elif line.startswith(f"counter {name} "):
            self.met["make finds a row"] += 1
            yield from self.counter_faults(table, shares, line.removeprefix(f"counter {name} "))
            if truth is None:
                yield f"{name} is sound, and make says {shown(line)}"
        elif line not in (f"unknown {name}", f"too large {name}"):
            yield f"a line is {shown(line)}"
        elif isinstance(truth, tuple) or has_certificate(self.catalog.tables[table], shares):
            yield f"make says {line}, and the model finds a row or a certificate"

    def certificate_faults(self, table: int, shares: list[str | Filter | None], text: str) -> Iterator[str]:
        """Yields what is wrong with a certificate, according to the model and to rows."""
        fault = reading_fault(text)
        if fault is not None:
            yield f"certificate {shown(text)} is {fault}"
            return
        if text.count(" ") < 2 * MOST_NODES and (refusal := table_refusal(self.catalog, table, nodes_of(text))):
            yield f"certificate {shown(text)} is refused by the model: {refusal}"
        filters = [share for share in shares if share not in (None, WHOLE)]
        values = Values(self.chance, self.catalog.tables[table], filters, lines=True, long=0)
        for row in (values.row() for _ in range(ROWS)):
            if len(owners(shares, row)) != 1:
                yield f"{row} goes to {owners(shares, row)}, and there is a certificate"
                return

    def counter_faults(self, table: int, shares: list[str | Filter | None], text: str) -> Iterator[str]:
        """Yields what is wrong with a row that should show a fault."""
        row, rest = read_row(text)
        if row is None or row_fault(self.catalog.tables[table], row):
            yield f"{shown(text)} is no row of the table"
            return
        found = owners(shares, row)
        names = ",".join(self.catalog.subscriptions[number].name for number in found) or "none"
        if len(found) == 1 or rest != f" owners {names}":
            yield f"{shown(text)} goes to {names}"


def has_certificate(table: Table, shares: list[str | Filter | None]) -> bool:
    """Returns whether the model's plain search finds a certificate."""
    return len(Walk(table, shares).atoms) <= MOST_ATOMS and certificate(table, shares) is not None


def is_certificate(line: str) -> bool:
    """Returns whether a line begins like a certificate."""
    return line[:2] in ("s ", "o ", "e ", "n ")
