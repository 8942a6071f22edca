"""The answers of `check`: how certificates are read, and whether each node of one is right."""

import re

from .catalogs import NOTHING, OPERATIONS, Catalog, Filter, Table
from .filters import atoms_of, columns_of, terms_of
from .knowledge import Known
from .passing import WHOLE, shares_of

Node = tuple[str, int]

MOST_NODES = 1_000_000
MOST_SPLITS = 64
LARGEST = 2**32 - 1
NUMBER = re.compile("0|[1-9][0-9]*", re.A)


def reading_fault(text: str) -> str | None:
    """Returns the fault of a certificate's text, or None."""
    words = text.split(" ")[::-1]
    left = [0]
    nodes = 0
    while left:
        splits = left.pop()
        # A space at the end of the text yields an empty word, which counts only if another word is expected.
        if not words or words == [""]:
            return "Ended"
        letter = words.pop()
        if letter not in ("s", "o", "e", "n"):
            return "BadToken"
        nodes += 1
        if nodes > MOST_NODES:
            return "TooLarge"
        if letter == "s" and splits == MOST_SPLITS:
            return "TooDeep"
        if not words or words == [""]:
            return "Ended"
        number = words.pop()
        if not NUMBER.fullmatch(number) or int(number) > LARGEST:
            return "BadToken"
        if letter == "s":
            left += [splits + 1] * 3
    return "Trailing" if words else None


def nodes_of(text: str) -> list[Node]:
    """Returns the nodes of a certificate."""
    words = text.split(" ")
    return [(letter, int(number)) for letter, number in zip(words[::2], words[1::2])]


def text_of(nodes: list[Node]) -> str:
    """Returns the text of a certificate."""
    return " ".join(f"{letter} {number}" for letter, number in nodes)


def check_lines(catalog: Catalog, certificates: list[str]) -> tuple[int, str]:
    """Returns the status and the line of `check`."""
    for number, text in enumerate(certificates, 1):
        fault = reading_fault(text)
        if fault is not None:
            return 3, f"certificate {number} {fault}"
    refusal = catalog_refusal(catalog)
    if refusal is None and len(certificates) != len(catalog.tables):
        refusal = "CertCount"
    for table, text in enumerate(certificates if refusal is None else []):
        found = table_refusal(catalog, table, nodes_of(text))
        if found is not None:
            return 1, f"refused {found}"
    return (0, "accepted") if refusal is None else (1, f"refused {refusal}")


def catalog_refusal(catalog: Catalog) -> str | None:
    """Returns what is wrong independently of the certificates."""
    numbers = sorted({number for it in catalog.subscriptions for number in it.publications})
    taken = [catalog.publications[number] for number in numbers]
    for publication in taken:
        for operation in OPERATIONS:
            if operation not in publication.operations:
                return f"PublishMissing {publication.name} {operation}"
    for table in catalog.tables:
        if table.identity == NOTHING:
            return f"NoIdentity {table.full_name()}"
    for publication in taken:
        for number, it in publication.entries:
            table = catalog.tables[number]
            for column in columns_of(it) if it is not None else []:
                if column not in table.identity_columns():
                    return f"NotCovered {publication.name} {table.full_name()} {table.columns[column].name}"
    return None


def table_refusal(catalog: Catalog, table: int, nodes: list[Node]) -> str | None:
    """Returns the first node that is wrong, and why."""
    shares = shares_of(catalog, table)
    found = Walk(catalog.tables[table], shares).first_fault(nodes)
    if found is None:
        return None
    fault, node, *second = found
    names = [f" {catalog.subscriptions[number].name}" for number in second]
    return f"{fault} {catalog.tables[table].full_name()} {node}{''.join(names)}"


class Walk:
    """A table, what its subscribers get of it, and its numbered atoms and terms."""

    def __init__(self, table: Table, shares: list[str | Filter | None]) -> None:
        self.table = table
        self.shares = shares
        filters = [it for it in shares if it not in (None, WHOLE)]
        self.atoms = atoms_of(*filters)
        self.terms = terms_of(*filters)

    def first_fault(self, nodes: list[Node]) -> tuple | None:
        """Returns the first fault, with the number of its node and that of a second owner."""
        paths: list[tuple] = [()]
        for number, (letter, named) in enumerate(nodes):
            path = paths.pop()
            known = Known(self.table, path)
            if letter == "s":
                if named >= len(self.atoms):
                    return "BadIndex", number
                paths += [(*path, (self.atoms[named], value)) for value in (None, False, True)]
                continue
            fault = self.leaf_fault(letter, named, known)
            if fault is not None:
                return fault[0], number, *fault[1:]
        return None

    def leaf_fault(self, letter: str, named: int, known: Known) -> tuple | None:
        """Returns the fault of a leaf."""
        listed = {"o": self.shares, "e": self.terms, "n": self.atoms}[letter]
        if named >= len(listed):
            return ("BadIndex",)
        if letter == "e":
            return None if known.is_empty(listed[named]) else ("NotEmpty",)
        if letter == "n":
            return None if known.is_never_null(listed[named]) else ("MayBeNull",)
        return self.owner_fault(named, known)

    def owner_fault(self, owner: int, known: Known) -> tuple | None:
        """Returns why a subscriber is not the only owner."""
        share = self.shares[owner]
        if share is None or share != WHOLE and known.possible(share) != {True}:
            return ("NotOwner",)
        for other, share in enumerate(self.shares):
            if other != owner and share is not None and (share == WHOLE or True in known.possible(share)):
                return "SecondOwner", other
        return None
