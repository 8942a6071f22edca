"""The case for a row of dimensions: a sound sharding and a script, with the expected answer of each subcommand."""

import random
from collections import Counter
from collections.abc import Iterator

from model.catalogs import Catalog, Column, Filter, Publication
from model.catalogs import Row as Values
from model.catalogs import Subscription, Table
from model.certificates import text_of
from model.making import certificate
from model.passing import eval_line, shares_of
from model.tables import Command
from model.values import written_row
from model.worlds import Step, World
from random_cases.case import Runner, differences, parts, shown
from random_cases.catalog_texts import CatalogText
from random_cases.filter_texts import FilterText
from random_cases.scripts import ScriptText

from .dimensions import Row

LEAST, GREATEST = -2**63 + 1, 2**63 - 1


class Plain(random.Random):
    """Always chooses the plain form of a text."""

    def random(self) -> float:
        """A number that is greater than the probability of any other form."""
        return 0.999


class NestedText(CatalogText):
    """Prints a catalog with this many levels of parentheses and NOT in each filter. The parentheses of WHERE are the
    first level."""

    def __init__(self, catalog: Catalog, nesting: int) -> None:
        super().__init__(catalog, Plain(), False)
        self.nesting = nesting

    def entry(self, number: int, filter: Filter | None) -> list[str]:
        """Returns the words for a table of a publication."""
        table = self.catalog.tables[number]
        found = ["TABLE", *self.table_name(table)]
        if filter is None:
            return found
        tokens = FilterText(table, Plain()).tokens(filter)
        levels = max(self.nesting - tokens.count("NOT"), 1)
        return [*found, "WHERE", *["("] * levels, *tokens, *[")"] * levels]


class SweepCase:
    """A case for which the model gives all answers."""

    def __init__(self, row: Row) -> None:
        self.row = row
        self.met: Counter[str] = Counter()
        self.catalog = catalog_of(row)
        self.text = NestedText(self.catalog, row["nesting"]).text()
        self.rows = rows_of(row)
        self.compared = 0

    def lines(self) -> int:
        """Returns how many lines were compared."""
        return self.compared

    def check(self, run: Runner) -> Iterator[str]:
        """Makes the runs, and yields what is wrong."""
        made = run(("make",), self.text.encode())
        if made.status != 0 or made.output.count("\n") != len(self.catalog.tables):
            yield f"make: status {made.status}, {shown(made.output)}"
            return
        yield from self.compare(run, ("check",), parts(self.text, made.output), "accepted\n")
        own = "".join(f"{text_of(nodes)}\n" for nodes in self.certificates())
        yield from self.compare(run, ("check",), parts(self.text, own), "accepted\n")
        steps = steps_of(self.row, self.rows)
        world = World(self.catalog, self.row["limit"])
        output = "".join(f"{line}\n" for step in steps for line in world.step(step))
        script = ScriptText(self.catalog, Plain(), False).text(steps)
        words = ("simulate", "--limit", str(self.row["limit"]))
        yield from self.compare(run, words, parts(self.text, made.output, script), output)
        for more in (), ("--insert",):
            lines = "".join(f"{eval_line(self.catalog, 0, row, bool(more))}\n" for row in self.rows)
            texts = "".join(f"{written_row(row)}\n" for row in self.rows)
            yield from self.compare(run, ("eval", self.named(), *more), parts(self.text, texts), lines)

    def named(self) -> str:
        """Returns the first table's qualified name, as written on a command line."""
        return f"public.{self.catalog.tables[0].name}"

    def certificates(self) -> Iterator[list[tuple[str, int]]]:
        """Yields the model's certificates."""
        for number, table in enumerate(self.catalog.tables):
            nodes = certificate(table, shares_of(self.catalog, number))
            assert nodes is not None
            yield nodes

    def compare(self, run: Runner, words: tuple[str, ...], text: bytes, expected: str) -> Iterator[str]:
        """Makes one run, which should end with status 0."""
        answer = run(words, text)
        self.compared += expected.count("\n")
        if answer.status != 0:
            yield f"{words[0]}: status {answer.status}"
        yield from (f"{words[0]}: {fault}" for fault in differences(answer.output, expected))


def name_of(row: Row) -> str:
    """Returns a name of this many bytes, all the same character."""
    return chr(row["character"]) * row["name"]


def catalog_of(row: Row) -> Catalog:
    """Returns a catalog with a table of this many columns, which up to three publications share, and other tables, each
    of which one publication carries."""
    name = name_of(row)
    columns = [Column("id", "bigint", True), Column(name if name != "id" else "note", "text", False)]
    columns += [Column(f"column {at}", "integer", False) for at in range(row["columns"])]
    tables = [Table("public", name, tuple(columns[:row["columns"]]), (0,))]
    tables += [Table("public", f"table {at}", (Column("id", "integer", True),), (0,)) for at in range(row["certificates"] - 1)]
    conditions = conditions_of(row)
    publications = []
    for at in range(row["publications"]):
        entries: list[tuple[int, Filter | None]] = [(0, conditions[at])] if at < len(conditions) else []
        entries += [(number, None) for number in range(1, len(tables)) if number % row["publications"] == at]
        publications.append(Publication(name if at == 0 else f"publication {at}", tuple(entries)))
    subscriptions = tuple(
        Subscription(name if at == 0 else f"subscription {at}", tuple(range(at, row["publications"], row["subscriptions"])))
        for at in range(row["subscriptions"]))
    return Catalog(tuple(tables), tuple(publications), subscriptions)


def conditions_of(row: Row) -> list[Filter | None]:
    """Returns the rows that each of the first publications carries: those in a list, those below a number, and the
    others."""
    listed: Filter = ("in", 0, 0, tuple(keys_of(row, row["list"])))
    if row["publications"] == 1:
        return [None]
    if row["publications"] == 2:
        return [listed, ("not", listed)]
    below: Filter = ("cmp", 0, 0, "<", row["number"])
    return [listed, ("and", ("not", listed), below), ("and", ("not", listed), ("not", below))]


def keys_of(row: Row, count: int) -> list[int]:
    """Returns this many numbers around the number of a row."""
    begin = min(max(row["number"] - count // 2, LEAST), GREATEST - count + 1)
    return list(range(begin, begin + count))


def rows_of(row: Row) -> list[Values]:
    """Returns rows around the number. The first has a text of the given length, and the others have shorter ones."""
    found = []
    for at, key in enumerate(keys_of(row, row["commands"])):
        text = chr(row["character"]) * max(row["text"] - at, 0)
        values = [key, text, *(at if number % 2 else None for number in range(row["columns"]))]
        found.append(tuple(values[:row["columns"]]))
    return found


def steps_of(row: Row, rows: list[Values]) -> list[Step]:
    """Returns a script that commits all rows at once, then some rows at a time until the log is full, and one more
    commit; and then shows what the subscribers have."""
    last = row["subscriptions"] - 1
    first: list[Step] = [("open", 0), ("commit", [("insert", 0, values) for values in rows])]
    commits: list[Step] = [("commit", commands_of(rows, at)) for at in range(row["limit"])]
    shown_ones = sorted({0, min(1, last), last})
    return [*first, *commits, *(("open", i) for i in shown_ones), *(("pump", i) for i in shown_ones), ("view",)]


def commands_of(rows: list[Values], at: int) -> list[Command]:
    """Returns commands on existing rows: each is updated to the same values, or deleted and inserted again."""
    values = rows[at % len(rows)]
    if at % 2:
        return [("update", 0, values[:1], values)]
    return [("delete", 0, values[:1]), ("insert", 0, values)]
