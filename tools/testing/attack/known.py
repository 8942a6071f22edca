"""Which conditions the server accepts as filters, for each kind of column."""

import os

from .designs import OWN_TYPES
from .kinds import Kind
from .oracle import Database

DATABASE = "attack_known"


def prepare(words: str) -> None:
    """Creates the database in which conditions are tried."""
    control = Database(words, "postgres")
    control.run(f"DROP DATABASE IF EXISTS {DATABASE} WITH (FORCE)")
    control.run(f"CREATE DATABASE {DATABASE} TEMPLATE template0 ENCODING 'UTF8'")
    control.connection.close()
    database = Database(words, DATABASE)
    database.run("SET client_min_messages = error")
    for statement in OWN_TYPES:
        database.run(statement)
    database.connection.close()


class Known:
    """Asks the server about each condition once, always with the same constants, so that a seed yields the same
    tables."""

    def __init__(self, words: str) -> None:
        self.database = Database(words, DATABASE)
        self.answers: dict[tuple[str, str], bool] = {}
        self.schema = f"process{os.getpid()}"
        self.database.run("SET client_min_messages = error")
        self.database.run(f"CREATE SCHEMA {self.schema}")
        self.database.run(f"CREATE PUBLICATION {self.schema}")

    def takes(self, kind: Kind, template: str) -> bool:
        """Returns whether the server accepts a filter, or a constraint, of this form."""
        key = kind.name, template
        if key not in self.answers:
            self.answers[key] = any(self.tried(kind, template, place) for place in range(3))
        return self.answers[key]

    def tried(self, kind: Kind, template: str, place: int) -> bool:
        """Tries a condition, or a measure, with the constants at a place."""
        table = f"{self.schema}.{kind.name}"
        first, other = (kind.values[(place + it) % len(kind.values)] for it in range(2))
        text = template.format(
            c="a", d="b", k=first, l=other, op="=", eq="=", m=place + 2, r=place - 1, j=7)
        text = f"({text}) = 1" if template in kind.measures and template not in kind.conditions else text
        if kind.is_filtered:
            statement = f"ALTER PUBLICATION {self.schema} SET TABLE {table} WHERE ({text})"
        else:
            statement = f"ALTER TABLE {table} ADD CHECK ({text})"
        made = f"CREATE TABLE IF NOT EXISTS {table} (a {kind.type}, b {kind.type})"
        self.database.fault([made])
        return self.database.refusal(statement) is None
