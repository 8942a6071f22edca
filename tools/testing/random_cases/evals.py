"""Cases of `eval`: rows of a table, with and without --insert."""

import random

from model.catalogs import Catalog, Table
from model.passing import eval_line

from .case import Case, parts
from .catalog_texts import CatalogText
from .catalogs import CatalogMaker, filters_on, tables
from .meeting import meet_catalog, meet_row
from .row_texts import no_row, row_text
from .row_values import Values

# How the lines of bad rows begin.
BAD = ("invalid ", "unreadable ")

MANY = 30_000
# No row is added after this many characters: an input has at most 16,777,216 bytes.
MOST_LETTERS = 5_000_000


def case(chance: random.Random, number: int) -> Case:
    """Returns a catalog with random filters, and rows of one of its tables; the first case has many rows."""
    maker = CatalogMaker(chance)
    fewest, most = chance.choices([(0, 6), (7, 64)], [95, 5])[0]
    catalog = maker.any(tables(chance), chance.randint(fewest, most), 0)
    insert = chance.random() < 0.5
    named = [number for number, table in enumerate(catalog.tables) if can_be_named(table.schema)]
    text = CatalogText(catalog, chance, chance.random() < 0.3).text()
    if not named or number > 0 and chance.random() < 0.02:
        return Case(("eval", "no table"), parts(text, ""), 3, "table no table\n")
    table = chance.choice(named)
    most = MANY if number == 0 else chance.choices([0, 1, 5, 20, 60, 400], [20, 20, 20, 20, 20, 1])[0]
    return of_rows(chance, catalog, text, table, insert, most)


def of_rows(chance: random.Random, catalog: Catalog, text: str, table: int, insert: bool, number: int) -> Case:
    """Returns this many rows of a table with their answers, or fewer if they are long."""
    values = Values(chance, catalog.tables[table], filters_on(list(catalog.publications), table), lines=False)
    found = Case(words(chance, catalog.tables[table], insert), b"", 0, "")
    meet_catalog(found.met, catalog)
    texts, lines = [], []
    letters = 0
    while len(lines) < number and letters < MOST_LETTERS:
        kind = chance.random()
        if kind < 0.1:
            row_line, line = no_row(values.row(), chance)
        else:
            row = values.faulty_row() if kind < 0.2 else values.row()
            row_line, line = row_text(row, chance), eval_line(catalog, table, row, insert)
            meet_row(found.met, catalog.tables[table], row)
        texts.append(row_line)
        lines.append(line)
        letters += len(row_line)
        found.met[f"a row is {line.split(' ')[0] if line.startswith(BAD) else 'read'}"] += 1
    rows = "".join(f"{row}\n" for row in texts)
    found.text = parts(text, rows[:-1] if texts and texts[-1] and chance.random() < 0.1 else rows)
    found.output = "".join(f"{line}\n" for line in lines)
    found.status = 1 if any(line.startswith(BAD) for line in lines) else 0
    return found


def can_be_named(name: str) -> bool:
    """Returns whether an argument may begin with a name: the argument is split at its first period, and must not look
    like an option."""
    return "." not in name and not name.startswith("-")


def words(chance: random.Random, table: Table, insert: bool) -> tuple[str, ...]:
    """Returns the arguments."""
    short = table.schema == "public" and can_be_named(table.name) and chance.random() < 0.5
    name = table.name if short else table.full_name()
    if not insert:
        return "eval", name
    return ("eval", name, "--insert") if chance.random() < 0.5 else ("eval", "--insert", name)
