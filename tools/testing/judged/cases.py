"""The form of a database case and of its right answers."""

from dataclasses import dataclass, field


@dataclass
class Case:
    """A database, judge's arguments, and the right answer for each table. `told` has parts of judge's lines."""

    name: str
    setup: str
    truth: dict
    words: list = field(default_factory=list)
    told: list = field(default_factory=list)
    # Tables whose row the server may refuse, which judge then says too.
    refusing: list = field(default_factory=list)
    # For sound tables: the regions of --explain, and rows, each of which is in one region.
    regions: dict = field(default_factory=dict)
    rows: dict = field(default_factory=dict)
    # Statements that the server refuses afterwards, each with a part of its message.
    fails: list = field(default_factory=list)
