"""Cases of `check`: certificates that are right, slightly changed, random, or malformed."""

import random

from model.catalogs import Catalog
from model.certificates import Node, Walk, check_lines, text_of
from model.making import certificate
from model.passing import shares_of

from .case import Case, parts
from .catalog_texts import CatalogText
from .catalogs import CatalogMaker, broken, tables
from .meeting import meet_catalog

# Words that no node contains, and what follows a tree.
NO_WORDS = ["", "x", "00", "-1", "4294967296", "\t", "s", "s0", "\r", "S", "o", "\x01", "é"]

# If there are more atoms, the model does not search for certificates.
MOST_ATOMS = 20


def case(chance: random.Random) -> Case:
    """Returns a catalog with certificates."""
    maker = CatalogMaker(chance)
    number = tables(chance)
    if chance.random() < 0.7:
        sound = maker.sound(number, chance.randint(1, 4), 2)
        catalog = broken(chance, sound) if chance.random() < 0.4 else sound
    else:
        sound = catalog = maker.any(number, chance.randint(1, 5), chance.randint(1, 3))
    certificates = certificates_of(chance, sound)
    status, line = check_lines(catalog, certificates)
    text = CatalogText(catalog, chance, chance.random() < 0.1).text()
    found = Case(("check",), parts(text, "".join(f"{it}\n" for it in certificates)), status, f"{line}\n")
    meet_catalog(found.met, catalog)
    words = line.split(" ")
    found.met["check answers " + (words[-1] if words[0] == "certificate" else " ".join(words[:2]))] += 1
    found.met["over 100 certificate lines"] += len(certificates) > 100
    return found


def certificates_of(chance: random.Random, catalog: Catalog) -> list[str]:
    """Returns certificates of the tables, or another number of lines."""
    found = []
    for number, table in enumerate(catalog.tables):
        shares = shares_of(catalog, number)
        walk = Walk(table, shares)
        nodes = certificate(table, shares) if chance.random() < 0.8 and len(walk.atoms) <= MOST_ATOMS else None
        nodes = nodes or tree(chance, walk, chance.randint(0, 4))
        while chance.random() < 0.25:
            nodes = changed(chance, walk, nodes)
        text = text_of(nodes)
        found.append(misspelled(chance, text) if chance.random() < 0.1 else text)
    match chance.randrange(40):
        case 0:
            found.pop()
        case 1:
            found.append("o 0")
        case 2:
            found += ["o 0"] * 150
    return found


def number_for(chance: random.Random, walk: Walk, letter: str) -> int:
    """Returns a number that usually fits a letter."""
    listed = {"s": walk.atoms, "n": walk.atoms, "e": walk.terms, "o": walk.shares}[letter]
    if chance.random() < 0.03 or not listed:
        return chance.choice([len(listed), 64, 2**32 - 1])
    return chance.randrange(len(listed))


def tree(chance: random.Random, walk: Walk, depth: int) -> list[Node]:
    """Returns a random tree."""
    if depth == 0 or chance.random() < 0.3:
        letter = chance.choice("ooen")
        return [(letter, number_for(chance, walk, letter))]
    found = [("s", number_for(chance, walk, "s"))]
    for _ in range(3):
        found += tree(chance, walk, depth - 1)
    return found


def changed(chance: random.Random, walk: Walk, nodes: list[Node]) -> list[Node]:
    """Returns a tree with another leaf or number, with a leaf that is split, or with a split replaced by a leaf."""
    at = chance.randrange(len(nodes))
    letter, number = nodes[at]
    if letter == "s" and chance.random() < 0.6:
        return [*nodes[:at], chance.choice([node for node in nodes if node[0] != "s"]), *nodes[end_at(nodes, at):]]
    if letter == "s":
        return [*nodes[:at], ("s", number_for(chance, walk, "s")), *nodes[at + 1:]]
    if chance.random() < 0.2:
        chain = [("s", number)] * 70 if chance.random() < 0.1 else [("s", number_for(chance, walk, "s"))]
        return [*nodes[:at], *chain, *[nodes[at]] * (2 * len(chain) + 1), *nodes[at + 1:]]
    letter = chance.choice("oen")
    return [*nodes[:at], (letter, number_for(chance, walk, letter)), *nodes[at + 1:]]


def end_at(nodes: list[Node], at: int) -> int:
    """Returns the end of the subtree that begins at a node."""
    due = 1
    while due:
        due += 2 if nodes[at][0] == "s" else -1
        at += 1
    return at


def misspelled(chance: random.Random, text: str) -> str:
    """Returns a text with a word changed, added or removed, or with another end."""
    words = text.split(" ")
    at = chance.randrange(len(words))
    match chance.randrange(5):
        case 0:
            words[at] = chance.choice(NO_WORDS)
        case 1:
            words.insert(at, chance.choice(NO_WORDS))
        case 2:
            del words[at]
        case 3:
            del words[at:]
        case _:
            words.append(chance.choice(["", "o 0", "\r", "x"]))
    return " ".join(words)
