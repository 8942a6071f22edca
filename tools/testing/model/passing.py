"""Which publications carry a table, and which rows each subscriber gets."""

from .catalogs import Catalog, Filter, Publication, Row
from .filters import meaning
from .messages import insert_message
from .values import row_fault

# Used in place of a filter if a table is carried whole.
WHOLE = "whole"


def carried(catalog: Catalog, publication: Publication, table: int) -> str | Filter | None:
    """Returns how a publication carries a table: WHOLE, by a filter, or not at all."""
    named = [it for number, it in publication.entries if number == table]
    if publication.all_tables or catalog.tables[table].schema in publication.schemas or None in named:
        return WHOLE
    return named[0] if named else None


def share_of(catalog: Catalog, subscriber: int, table: int) -> str | Filter | None:
    """Returns what a subscriber gets of a table: WHOLE, what one filter passes, or nothing."""
    taken = catalog.subscriptions[subscriber].publications
    found = [it for number in taken if (it := carried(catalog, catalog.publications[number], table)) is not None]
    if not found:
        return None
    if WHOLE in found:
        return WHOLE
    joined = found[0]
    for it in found[1:]:
        joined = ("or", joined, it)
    return joined


def shares_of(catalog: Catalog, table: int) -> list[str | Filter | None]:
    """Returns what each subscriber gets of a table."""
    return [share_of(catalog, number, table) for number in range(len(catalog.subscriptions))]


def takes(share: str | Filter | None, row: Row) -> bool:
    """Returns whether a share contains a row."""
    return share is not None and (share == WHOLE or meaning(share, row) is True)


def owners(shares: list[str | Filter | None], row: Row) -> list[int]:
    """Returns the subscribers that get a row."""
    return [number for number, share in enumerate(shares) if takes(share, row)]


def answers_of(catalog: Catalog, table: int, row: Row) -> list[tuple[str, str]]:
    """Returns each publication that carries the table, with its answer for a row: all, true, false or null."""
    words = {True: "true", False: "false", None: "null"}
    found = []
    for publication in catalog.publications:
        how = carried(catalog, publication, table)
        if how is not None:
            found.append((publication.name, "all" if how == WHOLE else words[meaning(how, row)]))
    return found


def eval_line(catalog: Catalog, table: int, row: Row, insert: bool) -> str:
    """Returns the line of `eval` for a row."""
    fault = row_fault(catalog.tables[table], row)
    if fault is not None:
        return f"invalid {fault}"
    answers = answers_of(catalog, table, row)
    if not insert:
        return " ".join(f"{name}={answer}" for name, answer in answers)
    if any(answer in ("all", "true") for _, answer in answers):
        return insert_message(table, row).hex()
    return "none"
