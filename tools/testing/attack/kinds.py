"""Kinds of columns: a type, its extreme values, and conditions on it that filters may contain."""

from dataclasses import dataclass


@dataclass(frozen=True)
class Kind:
    """A kind of column.

    Values are constants in SQL. A condition is a template: {c} is the column, {d} another column of its kind or a
    constant, {k} and {l} are constants, {op} is a comparison operator, {eq} one of = and <>, {m} a small positive
    number, {r} a small number, and {j} a large one. A measure is a template of an integer expression.
    """

    name: str
    type: str
    values: tuple[str, ...]
    conditions: tuple[str, ...] = ()
    measures: tuple[str, ...] = ()
    # Whether the type has < and =.
    is_ordered: bool = True
    # Whether filters may name such a column; other columns are used in constraints and partitions.
    is_filtered: bool = True
    # What has to be created first.
    needs: str = ""

    @property
    def plain(self) -> tuple[str, ...]:
        """Returns the conditions that are comparisons or tests for NULL."""
        return tuple(it for it in self.conditions if it in PLAIN) or self.conditions


# Conditions on each ordered type.
ORDERED = (
    "{c} {op} {k}", "{c} {op} {k}", "{c} BETWEEN {k} AND {l}", "{c} NOT BETWEEN {k} AND {l}",
    "{c} BETWEEN SYMMETRIC {k} AND {l}", "{c} IN ({k}, {l})", "{c} NOT IN ({k}, {l})", "{c} IN ({k}, {l}, NULL)",
    "{c} NOT IN ({k}, NULL)", "{c} IS DISTINCT FROM {k}", "{c} IS NOT DISTINCT FROM {k}", "{c} IS DISTINCT FROM NULL",
    "coalesce({c}, {k}) {op} {l}", "nullif({c}, {k}) {op} {l}", "nullif({c}, {k}) IS NULL", "nullif({c}, {d}) IS NULL",
    "greatest({c}, {k}) {op} {l}", "least({c}, {k}) {op} {l}", "greatest({c}, {d}) = {c}", "least({c}, {d}) IS NULL",
    "greatest({c}, {k}) IS DISTINCT FROM {l}", "least({c}, {d}, {k}) {op} {l}",
    "{c} {op} {d}", "{c} IS DISTINCT FROM {d}", "{c} IS NOT DISTINCT FROM {d}", "{c} {op} {c}",
    "CASE {c} WHEN {k} THEN true WHEN {l} THEN false END", "CASE {c} WHEN {k} THEN 1 WHEN {l} THEN 2 ELSE 0 END {op} 1",
    "CASE WHEN {c} {op} {k} THEN {c} ELSE {l} END {op} {l}", "coalesce({c}, {d}) {op} {k}",
    "coalesce({c}, {d}) IS NULL",
    "({c}, {d}) {op} ({k}, {l})", "({c}, {d}) IN (({k}, {l}), ({l}, {k}))", "ROW({c}, {d}) IS NULL",
    "ROW({c}, {d}) IS NOT NULL", "ROW({c}, {d}) IS DISTINCT FROM ROW({k}, {l})", "{k} {op} {c}",
)
# Conditions on each type.
ANY = ("{c} IS NULL", "{c} IS NOT NULL", "{c} IS NULL")
PLAIN = {*ORDERED, *ANY}
