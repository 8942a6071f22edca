"""What the server enforces for each row of a table: validated CHECKs, and the bounds of one or several partitions.

Each is a condition in SQL, and refuses a row for which it is FALSE.
"""

from collections.abc import Iterator, Sequence

from pgshard_tools.judging.database import Table
from pgshard_tools.judging.parser import is_built_in
from pgshard_tools.judging.shares import Shares

BOUNDS, BOUNDS_OF_ALL = "the bounds of the partition", "the bounds of the partitions"


def constraint_texts(shares: Shares) -> Iterator[tuple[str, str]]:
    """Yields the constraints by name. The server does not enforce those of a foreign table, and its bounds only for
    rows that are routed through a table above it."""
    table = shares.table
    for name, text in checks_of(table).items() if table["kind"] != "f" else ():
        yield f"CHECK {name}", text
    if shares.leaves[0] is table:
        if table["partition"]:
            yield BOUNDS, table["partition"]
    elif not any(is_open(shares, it) for it in shares.leaves):
        yield BOUNDS_OF_ALL, " OR ".join(leaf_text(shares, it) for it in shares.leaves)


def is_open(shares: Shares, leaf: Table) -> bool:
    """Returns whether a partition accepts each row of its table, as a DEFAULT partition without others does."""
    return not (leaf["partition"] or leaf_checks(shares, leaf) or leaf_columns(shares, leaf))


def bounds_of(leaf: Table) -> str:
    """The bounds of a partition."""
    return leaf["partition"] or "true"


def leaf_text(shares: Shares, leaf: Table) -> str:
    """Returns the condition that a row may be in a partition, without its CHECKs that call functions of the
    database."""
    asked = [it for it in leaf_checks(shares, leaf) if is_of_server(it, [leaf])]
    parts = [f"({bounds_of(leaf)})", *(f"(({it}) IS NOT FALSE)" for it in asked),
             *(f"({it} IS NOT NULL)" for it in leaf_columns(shares, leaf))]
    return f"({' AND '.join(parts)})"


def is_of_server(text: str, tables: Sequence[Table]) -> bool:
    """Returns whether a constraint of some tables calls only the server's own functions and operators. The texts of IS
    DISTINCT FROM, NULLIF and CASE name no operator; for each CHECK, the server says whether it calls others."""
    are_own = (it["is_own"] for table in tables for it in table["checks"] if it["text"] == text)
    return all(are_own) and is_built_in(text)


def leaf_checks(shares: Shares, leaf: Table) -> list[str]:
    """Returns the CHECKs that a partition has in addition to those of its table."""
    own = set(checks_of(shares.table).values())
    return [it for it in checks_of(leaf).values() if it not in own]


def leaf_columns(shares: Shares, leaf: Table) -> list[str]:
    """Returns the columns that are NOT NULL only in a partition, as written."""
    own = {it["name"] for it in shares.table["columns"] if it["not_null"]}
    return [it["quoted"] for it in leaf["columns"] if it["not_null"] and it["name"] not in own]


def unvalidated_checks(shares: Shares) -> dict[str, str]:
    """Returns the CHECKs that are NOT VALID, by name: older rows need not satisfy them, but the server refuses new rows
    that do not."""
    tables = [it for it in (shares.table, *shares.leaves) if it["kind"] != "f"]
    return {check["name"]: check["text"] for it in tables for check in it["checks"] if not check["is_valid"]}


def checks_of(table: Table) -> dict[str, str]:
    """Returns the validated CHECKs of a table by name."""
    return {it["name"]: it["text"] for it in table["checks"] if it["is_valid"]}
