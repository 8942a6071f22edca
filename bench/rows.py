"""Inputs of `eval`: a table, publications that split it, and a million short rows; and the same for PostgreSQL."""

from dataclasses import dataclass

import families

# As many rows as fit in the most bytes of an input, 16,777,216, where a row has 15 bytes with its newline.
ROWS = 1_000_000
TABLE = "t"


@dataclass
class Input:
    """The columns of a table as SQL, the filters of its publications, and a row's values for each number of a row."""

    columns: str
    filters: list
    cells: object
    rows: int = ROWS

    def catalog(self):
        lines = [f"CREATE TABLE {TABLE} ({self.columns});", f"ALTER TABLE {TABLE} REPLICA IDENTITY FULL;"]
        lines += [f"CREATE PUBLICATION p{at} FOR TABLE {TABLE} WHERE ({it});" for at, it in enumerate(self.filters)]
        return "\n".join(lines) + "\n"

    def write_program_input(self, path, rows=None):
        rows = self.rows if rows is None else rows
        with open(path, "w") as file:
            file.write(self.catalog() + "%%\n")
            file.writelines(f"({', '.join(literal(it) for it in self.cells(at))})\n" for at in range(rows))

    def write_copy_input(self, path):
        """The rows as COPY reads them."""
        with open(path, "w") as file:
            file.writelines("\t".join(r"\N" if it is None else str(it) for it in self.cells(at)) + "\n" for at in range(self.rows))

    def counting(self):
        """The query for how many rows each publication carries."""
        counts = ", ".join(f"count(*) FILTER (WHERE ({it}))" for it in self.filters)
        return f"SELECT {counts} FROM {TABLE};"


def literal(cell):
    if cell is None:
        return "NULL"
    return f"'{cell}'" if isinstance(cell, str) else str(cell)


def scattered(at):
    """The numbers below ROWS in another order."""
    return at * 387_563 % ROWS


def ranges(count):
    """Ranges of an integer key, with a small number beside it."""
    step = ROWS // count
    filters = [f"id < {step}"]
    filters += [f"id >= {step * at} AND id < {step * (at + 1)}" for at in range(1, count - 1)]
    filters += [f"id >= {step * (count - 1)}"]
    return Input("id integer PRIMARY KEY, size smallint", filters, lambda at: (scattered(at), at % 100))


def remainders(count):
    """Remainders of an integer key of both signs, with a small number beside it."""
    filters = [f"id % {count} = 0"]
    filters += [f"id % {count} = {at} OR id % {count} = -{at}" for at in range(1, count)]
    return Input("id integer PRIMARY KEY, size smallint", filters, lambda at: (scattered(at) - ROWS // 2, at % 100))


def regions(count):
    """Two regions for each publication but the last, which has the others and the rows without a region."""
    sharding = families.text_lists(count)
    filters = [families.condition_text(it) for it in sharding.conditions]
    names = [f"r{at}" for at in range(2 * count)] + [None]
    return Input("id integer PRIMARY KEY, region text", filters, lambda at: (scattered(at), names[scattered(at) % len(names)]))


def numbers(at):
    """Eight numbers below 1,000."""
    return tuple(scattered(at * (2 * place + 1) % ROWS) % 1000 for place in range(8))


def columns(count):
    """Least numbers of eight columns, two for each publication. Nearly no two rows pass the same of them."""
    names = "abcdefgh"
    atoms = [f"{name} >= {125 * at}" for name in names for at in range(8)]
    filters = [f"{atoms[at * 13 % 64]} AND {atoms[(at * 29 + 7) % 64]}" for at in range(count)]
    declared = ", ".join(f"{name} integer{' PRIMARY KEY' if name == 'a' else ''}" for name in names)
    return Input(declared, filters, numbers, 300_000)


FAMILIES = {it.__name__: it for it in (ranges, remainders, regions, columns)}
