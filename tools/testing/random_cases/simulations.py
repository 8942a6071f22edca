"""Cases of `simulate`: random scripts for sound shardings."""

import random
from collections import Counter
from collections.abc import Iterator

from model.catalogs import Catalog
from model.certificates import Walk, check_lines, text_of
from model.making import certificate
from model.passing import shares_of
from model.worlds import World

from .case import Case, Runner, parts, shown
from .catalog_texts import CatalogText
from .catalogs import CatalogMaker, tables
from .checks import MOST_ATOMS, certificates_of
from .meeting import meet_catalog, meet_script
from .scripts import ScriptMaker, ScriptText

MOST_PUBLICATIONS = 64

# No step is added to a script whose texts have more characters: an input has at most 16,777,216 bytes.
MOST_LETTERS = 3_000_000


def case(chance: random.Random) -> "Simulation":
    """Returns a catalog, and a script of up to 300 steps."""
    subscribers = chance.choices([1, 2, 3, 4, 6, chance.randint(5, 32)], [16, 32, 16, 16, 16, 4])[0]
    most = MOST_PUBLICATIONS // subscribers
    each = min(most, chance.choices([1, 2, 4, most], [32, 32, 32, 4])[0])
    catalog = CatalogMaker(chance).sound(tables(chance), subscribers, each)
    limit = chance.randint(1, 12) if chance.random() < 0.1 else None
    world = World(catalog, limit or 1_000_000)
    made = ScriptMaker(chance, catalog, world)
    number = chance.choice([5, 20, 50, 100, 300])
    while len(made.steps) < number and made.letters < MOST_LETTERS:
        made.add_any()
    made.add(("view",))
    found = Simulation(chance, catalog, made, limit)
    return refused(chance, catalog, found) if chance.random() < 0.04 else found


def refused(chance: random.Random, catalog: Catalog, it: "Simulation") -> "Case | Simulation":
    """Returns the same script with random certificates. If these are refused, no step is made."""
    certificates = certificates_of(chance, catalog)
    status, line = check_lines(catalog, certificates)
    if status == 0:
        return it
    text = parts(it.catalog_text, "".join(f"{text}\n" for text in certificates), it.script_text)
    return Case(it.words, text, status, f"{line}\n", Counter({"a simulation that is refused": 1}))


class Simulation:
    """A script, with certificates from the model's own search, or from `make` if that finds none."""

    def __init__(self, chance: random.Random, catalog: Catalog, made: ScriptMaker, limit: int | None = None) -> None:
        noise = chance.random() < 0.15
        self.catalog_text = CatalogText(catalog, chance, noise).text()
        self.script_text = ScriptText(catalog, chance, noise).text(made.steps)
        self.certificates = self.own_certificates(chance, catalog)
        self.words = ("simulate", "--limit", str(limit)) if limit else ("simulate",)
        self.output = "".join(f"{line}\n" for line in made.lines)
        self.met: Counter[str] = Counter()
        meet_catalog(self.met, catalog)
        meet_script(self.met, catalog, made)

    def own_certificates(self, chance: random.Random, catalog: Catalog) -> str | None:
        """Returns the model's certificates, if it finds them for all tables."""
        if chance.random() < 0.3:
            return None
        found = []
        for number, table in enumerate(catalog.tables):
            shares = shares_of(catalog, number)
            if len(Walk(table, shares).atoms) > MOST_ATOMS:
                return None
            nodes = certificate(table, shares)
            if nodes is None:
                return None
            found.append(text_of(nodes))
        return "".join(f"{text}\n" for text in found)

    @property
    def text(self) -> bytes:
        """Returns the input."""
        return parts(self.catalog_text, self.certificates or "", self.script_text)

    def lines(self) -> int:
        """Returns how many lines are compared."""
        return self.output.count("\n")

    def check(self, run: Runner) -> Iterator[str]:
        """Makes the runs, and yields what is wrong."""
        if self.certificates is None:
            made = run(("make",), self.catalog_text.encode())
            if made.status != 0:
                yield f"make has no certificates: status {made.status}, {shown(made.output)}"
                return
            self.certificates = made.output
        yield from Case(self.words, self.text, 0, self.output).check(run)
