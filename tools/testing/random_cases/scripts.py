"""Random scripts, with the lines that the model answers."""

import random

from model.catalogs import Catalog, Row
from model.passing import WHOLE
from model.tables import Command
from model.worlds import Step, World

from .names import spelled
from .row_texts import row_text, row_tokens
from .row_values import Values
from .texts import Exact, commas, joined

# The relative frequency of each step.
KINDS = {
    "commit": 30, "open": 8, "hear": 10, "take": 14, "keep": 5, "deliver": 14, "report": 7, "lose": 3, "pump": 6,
    "view": 3,
}
COUNTS = [0, 1, 5, 8, 23, 31, 39, 51, 56, 91, 92, 100, 257, 1000]
LARGE_COUNTS = [65_536, 65_601, 16_777_216, 2**31, 2**32, 2**63 - 1]


class ScriptMaker:
    """Generates steps one after another. The model makes them too, so that later steps refer to what exists."""

    def __init__(self, chance: random.Random, catalog: Catalog, world: World, faults: float = 0.04) -> None:
        self.chance = chance
        self.catalog = catalog
        self.world = world
        self.faults = faults
        self.most_commands = chance.choice([1, 3, 3, 8, 30])
        self.values = [
            Values(chance, table, [it for it in world.shares[number] if it not in (None, WHOLE)], True, 0.001)
            for number, table in enumerate(catalog.tables)]
        self.steps: list[Step] = []
        self.lines: list[str] = []
        self.letters = 0

    def add(self, step: Step) -> None:
        """Appends a step."""
        self.steps.append(step)
        self.lines += self.world.step(step)
        if step[0] == "commit":
            values = [value for command in step[1] for row in command[2:] for value in row]
            self.letters += sum(len(value) for value in values if isinstance(value, str))

    def add_any(self) -> None:
        """Appends a random step."""
        chance = self.chance
        kind = chance.choices(list(KINDS), list(KINDS.values()))[0]
        if kind == "commit":
            return self.add(("commit", self.commands()))
        if kind == "view":
            return self.add(("view",))
        i = self.subscriber(kind)
        match kind:
            case "hear" | "deliver":
                return self.add((kind, i, self.count()))
            case "keep" | "report":
                return self.add((kind, i, chance.random() < 0.5))
        return self.add((kind, i))

    def subscriber(self, kind: str) -> int:
        """Returns the number of a subscriber, mostly one for which the step has an effect."""
        number = len(self.world.subscribers)
        if self.chance.random() < 0.02 or not number:
            return self.chance.choice([number, number + 1, 31, 2**32, 2**63 - 1])
        fit = [it.number for it in self.world.subscribers if (it.connection is None) == (kind == "open")]
        return self.chance.choice(fit) if fit and self.chance.random() < 0.9 else self.chance.randrange(number)

    def count(self) -> int:
        """Returns the most bytes to move."""
        kind = self.chance.random()
        if kind < 0.5:
            return self.chance.choice(COUNTS)
        return self.chance.choice(LARGE_COUNTS) if kind < 0.8 else self.chance.randrange(400)

    def commands(self) -> list[Command]:
        """Returns the commands of a commit, which may be none."""
        if self.chance.random() < 0.02 or not self.catalog.tables:
            return []
        return [self.command() for _ in range(self.chance.randint(1, self.most_commands))]

    def command(self) -> Command:
        """Returns a command."""
        chance = self.chance
        table = chance.randrange(len(self.catalog.tables))
        kind = chance.choices(["insert", "update", "delete", "truncate"], [50, 28, 18, 4])[0]
        if kind == "truncate":
            return kind, [chance.randrange(len(self.catalog.tables)) for _ in range(chance.randint(1, 3))]
        row = self.values[table].faulty_row() if chance.random() < self.faults else self.values[table].row()
        if kind == "insert":
            return kind, table, row
        key, old = self.key(table)
        if kind == "delete":
            return kind, table, key
        if old is not None and chance.random() < 0.8 and len(row) == len(old):
            row = tuple(mine if chance.random() < 0.3 else its for mine, its in zip(row, old))
        return kind, table, key, row

    def key(self, table: int) -> tuple[Row, Row | None]:
        """Returns the key of an existing row, with the row, or another key."""
        rows = self.world.database.tables[table]
        if rows.by_key and self.chance.random() > self.faults:
            row = self.chance.choice(list(rows.by_key.values()))
            return tuple(row[at] for at in rows.table.key), row
        if self.chance.random() < 0.5:
            return self.values[table].faulty_key(), None
        row = self.values[table].row()
        return tuple(row[at] for at in rows.table.key), None


class ScriptText:
    """Prints a script."""

    def __init__(self, catalog: Catalog, chance: random.Random, noise: bool) -> None:
        self.catalog = catalog
        self.chance = chance
        self.noise = noise

    def text(self, steps: list[Step]) -> str:
        """Returns the script's text."""
        return "".join(joined(self.statement(step), self.chance, self.noise) + "\n" for step in steps)

    def statement(self, step: Step) -> list[str]:
        """Returns a step with its semicolon."""
        return [*self.tokens(step), ";"]

    def tokens(self, step: Step) -> list[str]:
        """Returns a step."""
        match step:
            case ("commit", commands):
                return ["COMMIT", *commas([self.command(it) for it in commands])]
            case ("report", i, False) if self.chance.random() < 0.3:
                return ["REPORT", str(i)]
            case ("keep" | "report", i, want):
                return [step[0].upper(), str(i), "TRUE" if want else "FALSE"]
        return [step[0].upper(), *map(str, step[1:])]

    def command(self, command: Command) -> list[str]:
        """Returns a command."""
        if command[0] == "truncate":
            return ["TRUNCATE", "(", *commas([self.table(number) for number in command[1]]), ")"]
        rows = [token for row in command[2:] for token in self.row(row)]
        return [command[0].upper(), *self.table(command[1]), *rows]

    def row(self, row: Row) -> list[str]:
        """Returns a row or a key."""
        return row_tokens(row, self.chance) if self.noise else [row_text(row, self.chance)]

    def table(self, number: int) -> list[str]:
        """Returns a table's name."""
        table = self.catalog.tables[number]
        name = Exact(spelled(table.name, self.chance))
        if table.schema == "public" and self.chance.random() < 0.8:
            return [name]
        return [Exact(spelled(table.schema, self.chance)), ".", name]
