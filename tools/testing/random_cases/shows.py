"""Cases of `show`: what it prints of a catalog, and that its output is read as the same catalog."""

import random
from collections import Counter
from collections.abc import Iterator
from dataclasses import replace

from model.catalogs import Catalog, Publication
from model.showing import carried, comes_twice, text_of

from .case import Runner, differences, parts
from .catalog_texts import CatalogText
from .catalogs import CatalogMaker, tables
from .meeting import meet_catalog


def case(chance: random.Random) -> "ShownCase":
    """Returns an arbitrary catalog, or a sound one. Some publications carry a table both by name and through its
    schema."""
    maker = CatalogMaker(chance)
    number = tables(chance)
    if chance.random() < 0.4:
        catalog = maker.sound(number, chance.randint(1, 4), 2)
    else:
        catalog = maker.any(number, chance.randint(1, 5), chance.randint(1, 4))
    publications = tuple(with_schema(chance, catalog, it) for it in catalog.publications)
    return ShownCase(chance, replace(catalog, publications=publications))


def with_schema(chance: random.Random, catalog: Catalog, publication: Publication) -> Publication:
    """Sometimes adds the schema of a table to a publication that names the table."""
    if publication.all_tables or not publication.entries or chance.random() < 0.8:
        return publication
    number, _ = chance.choice(publication.entries)
    return replace(publication, schemas=tuple({*publication.schemas, catalog.tables[number].schema}))


class ShownCase:
    """A catalog that `show` reads."""

    def __init__(self, chance: random.Random, catalog: Catalog) -> None:
        self.catalog = catalog
        self.catalog_text = CatalogText(catalog, chance, chance.random() < 0.3).text()
        self.expected = text_of(catalog)
        self.met: Counter[str] = Counter()
        meet_catalog(self.met, catalog)
        self.met["a table that is carried twice"] += any(
            comes_twice(carried(catalog, it)) for it in catalog.publications)
        self.words: tuple[str, ...] = ("show",)
        self.text = self.catalog_text.encode()

    def lines(self) -> int:
        """Returns how many lines are compared."""
        return self.expected.count("\n")

    def check(self, run: Runner) -> Iterator[str]:
        """Makes the runs, and yields what is wrong."""
        answer = run(self.words, self.text)
        if answer.status != 0:
            yield f"status {answer.status}"
        yield from differences(answer.output, self.expected)
        again = run(self.words, answer.output.encode())
        if (again.status, again.output) != (0, answer.output):
            yield "what is shown is not shown again"
        made = run(("make",), self.text)
        made_again = run(("make",), answer.output.encode())
        if (made.status, made.output) != (made_again.status, made_again.output):
            yield "make answers otherwise of what is shown"
        yield from self.checked(run, answer.output, made.output)

    def checked(self, run: Runner, shown: str, certificates: str) -> Iterator[str]:
        """Compares what `check` says of the catalog and of its shown text, with some lines as certificates."""
        lines = "".join(line if line[:2] in ("s ", "o ", "e ", "n ") else "o 0\n"
                        for line in certificates.splitlines(keepends=True))
        plain = run(("check",), parts(self.catalog_text, lines))
        again = run(("check",), parts(shown, lines))
        if (plain.status, plain.output) != (again.status, again.output):
            yield "check answers otherwise of what is shown"
        with_catalog = run(("check", "--show"), parts(self.catalog_text, lines))
        if (with_catalog.status, with_catalog.output) != (plain.status, shown + plain.output):
            yield "check --show prints something other than the catalog and then the answer of check"
