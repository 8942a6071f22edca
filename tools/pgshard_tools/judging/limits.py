"""Faults of a catalog in the words of an operator, with the limits by name."""

from typing import Any

from pgshard_tools.judging import printing
from pgshard_tools.judging.program import Unreadable

LIMITS = {
    "Tables": "64 tables", "Columns": "100 columns in a table", "Publications": "64 publications",
    "Subscriptions": "32 subscriptions", "Indexes": "8 unique indexes in a table",
    "Atoms": "64 different conditions in the filters of a table",
    "Nodes": "1,000 conditions, ANDs, ORs and NOTs in the filters of a table",
    "Entries": "100 entries in a list", "LiteralBytes": "65,535 bytes in a text",
}
ATOMS = 64


def words(trial: Any, unreadable: Unreadable) -> str:
    """Returns why a catalog that judge has created exceeds a limit of pgshard."""
    place = trial.catalog.encode("utf-8", "surrogateescape")[unreadable.place:].decode("utf-8", "surrogateescape")
    if unreadable.kind == "TooMany":
        return f"it exceeds a limit of pgshard: {LIMITS[limit_of(trial, place)]}"
    kinds = {"TooDeep": "a filter nests over 64 deep", "NameTooLong": "a name has over 63 bytes",
             "NumberTooLarge": "a number is past 9223372036854775807"}
    found = kinds.get(unreadable.kind, f"{unreadable.kind} at {' '.join(place[:60].split())}")
    return f"it exceeds a limit of pgshard: {found}"


def limit_of(trial: Any, place: str) -> str:
    """Returns which limit a TooMany concerns: it depends on where the fault is, and for filters on the number of
    conditions."""
    if place.startswith("WHERE"):
        listed = [*trial.filters.values(), *trial.constraints]
        atoms = {it.atom for formula in listed if formula is not None for it in printing.atoms_of(formula)}
        return "Atoms" if len(atoms) > ATOMS else "Nodes"
    before = trial.catalog[:len(trial.catalog) - len(place)].rsplit(";", 1)[-1]
    if "SUBSCRIPTION" in before:
        return "Subscriptions"
    return "Publications" if "CREATE PUBLICATION" in before else "Columns"
