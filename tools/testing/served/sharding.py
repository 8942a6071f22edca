"""A catalog with a script of commits, and the expected result."""

from dataclasses import dataclass

from programs import pgshard

from .program import SECONDS
from .publisher import Command, Publisher, Subscriber, Table, command_text


@dataclass(frozen=True)
class Sharding:
    """A catalog's text, its meaning, and commits. The refused ones are given by their numbers, from 1."""

    catalog: str
    tables: tuple[Table, ...]
    subscribers: tuple[Subscriber, ...]
    commits: list[list[Command]]
    refused: frozenset[int] = frozenset()

    def publisher(self) -> Publisher:
        """Returns a publisher that has made the other commits."""
        made = Publisher(self.tables)
        for number, commands in enumerate(self.commits, 1):
            if number not in self.refused:
                made.commit(commands)
        return made

    def input(self) -> str:
        """Returns the input of serve, with the certificates that make finds."""
        _, certificates = pgshard("make", text=self.catalog, seconds=SECONDS)
        return f"{self.catalog}%%\n{certificates}%%\n{self.script()}"

    def script(self) -> str:
        """Returns the script, one step per line."""
        return "".join(f"COMMIT {', '.join(map(command_text, commands))};\n" for commands in self.commits)
