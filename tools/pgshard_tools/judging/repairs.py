"""Statements that make a table sound: an additional publication for rows that reach nobody, and narrower filters if
several publications have the same rows."""

import re
from collections.abc import Iterator, Sequence
from dataclasses import dataclass, field

from pgshard_tools.judging import faulty_regions
from pgshard_tools.judging.database import OPERATIONS, Database, Publication, names_of
from pgshard_tools.judging.divisions import Division, Piece
from pgshard_tools.judging.rewriting import LONGEST_NAME
from pgshard_tools.judging.server_types import quoted
from pgshard_tools.judging.shares import Shares

# A filter for more regions than this is written in terms of the existing filters.
MOST_REGIONS = 6
QUOTED = re.compile(r"""'(?:[^']|'')*'|"(?:[^"]|"")*\"""")
PLAIN_NAME = re.compile(r"[a-z_][a-z0-9_]*\Z")


class NoRepair(Exception):
    """Why there is no repair, and what to do."""

    def __init__(self, words: str) -> None:
        super().__init__(words)
        self.words = words


@dataclass
class Plan:
    """Statements, the publication that they create, if any, and what they do, in words."""

    statements: list[str] = field(default_factory=list)
    publication: str | None = None
    notes: list[str] = field(default_factory=list)


@dataclass
class Owners:
    """Who should get which rows: those that several get stay with the first of them in the order of `ranks`."""

    division: Division
    ranks: list[str]
    purpose: str | None

    def keeper(self, piece: Piece) -> str | None:
        """Returns who gets the rows of a piece."""
        return next((it for it in self.ranks if it in piece.takers), None)

    def gaps(self) -> list[Piece]:
        """Returns the rows that reach nobody, unless that is intended."""
        return [it for it in self.division.pieces if not it.takers and self.purpose != "partial"]

    def kept_by(self, name: str) -> list[Piece]:
        return [it for it in self.division.pieces if self.keeper(it) == name]

    def losers(self) -> dict[str, list[str]]:
        """Returns each subscriber that should lose some of its rows, with those that keep them."""
        found: dict[str, dict[str, bool]] = {}
        for piece in self.division.pieces:
            keeper = self.keeper(piece)
            for name in piece.takers:
                if keeper is not None and name != keeper:
                    found.setdefault(name, {})[keeper] = True
        return {name: list(keepers) for name, keepers in sorted(found.items(), key=lambda it: self.ranks.index(it[0]))}


def plans(db: Database, shares: Shares, division: Division, purpose: str | None, keep: Sequence[str]) -> Iterator[Plan]:
    """Yields plans to try one after the other: the first lists the rows, and the other refers to the existing
    filters."""
    owners = Owners(division, ranks_of(db, shares, keep), purpose)
    for name in owners.losers():
        want_own_publications(db, shares, name)
    if is_short(owners):
        yield Planner(db, shares, owners, by_regions=True).made()
    yield Planner(db, shares, owners, by_regions=False).made()


def ranks_of(db: Database, shares: Shares, keep: Sequence[str]) -> list[str]:
    """Returns the subscribers in the order in which they keep rows: those that --keep names, those whose filters cannot
    be narrowed, and the others."""
    fixed = [it for it in shares.takers if it not in keep and why_fixed(db, shares, it) is not None]
    return [*keep, *fixed, *(it for it in shares.takers if it not in keep and it not in fixed)]


def want_own_publications(db: Database, shares: Shares, name: str) -> None:
    """Gives up if the filters of a subscriber cannot be narrowed."""
    why = why_fixed(db, shares, name)
    if why is not None:
        raise NoRepair(f"{name} would have to lose rows, but {why}; use --keep {name} to leave them there")


def why_fixed(db: Database, shares: Shares, name: str) -> str | None:
    """Returns why the filters of a subscriber cannot be narrowed."""
    for taken in shares.takers[name]:
        publication = db.publications[taken]
        others = [it for it, names in shares.takers.items() if it != name and taken in names]
        if others:
            return f"publication {taken} is taken by {' and '.join([name, *others])}, and each needs one of its own"
        if publication["all"] or shares.table["schema"] in publication["schemas"]:
            form = "FOR ALL TABLES" if publication["all"] else "FOR TABLES IN SCHEMA"
            return f"publication {taken} is {form}, which has no filters; FOR TABLE allows them"
        if db.entry(publication, shares.table["oid"]) is None:
            return (f"publication {taken} has the table by a partitioned table above it; one FOR TABLE of itself has "
                    "filters")
    return None


def is_short(owners: Owners) -> bool:
    """Returns whether all filters can be written with a few regions."""
    listed = [owners.gaps(), *(owners.kept_by(it) for it in owners.losers())]
    return owners.division.is_whole and all(len(it) <= MOST_REGIONS for it in listed)


@dataclass
class Planner:
    """Makes a plan."""

    db: Database
    shares: Shares
    owners: Owners
    by_regions: bool

    def made(self) -> Plan:
        plan = Plan()
        if self.owners.gaps() or not self.owners.division.is_whole and self.owners.purpose != "partial":
            self.add_publication(plan)
        for name, keepers in self.owners.losers().items():
            self.narrow(plan, name, keepers)
        return plan

    def add_publication(self, plan: Plan) -> None:
        """Adds a publication for the rows that reach nobody."""
        plan.publication = free_publication(self.db, self.shares)
        gaps = self.owners.gaps()
        filters = dict.fromkeys(self.filter_of(it) for it in self.taken())
        condition = conditions_of(gaps) if self.by_regions else " AND ".join(f"({it}) IS NOT TRUE" for it in filters)
        where = "" if condition in ("all rows", "") else f" WHERE ({condition})"
        plan.statements.append(
            f"CREATE PUBLICATION {name_text(plan.publication)} FOR TABLE {self.shares.table['quoted']}"
            f"{self.common_columns()}{where}{self.options()};")
        plan.notes.append(
            f"the rows that reached nobody are in {plan.publication}, which a subscriber has to take: CREATE "
            "SUBSCRIPTION, or ALTER SUBSCRIPTION .. ADD PUBLICATION")

    def narrow(self, plan: Plan, name: str, keepers: Sequence[str]) -> None:
        """Narrows the filters of a subscriber by what others keep."""
        kept, names = self.owners.kept_by(name), self.shares.takers[name]
        plan.notes.append(f"rows that {' and '.join(keepers)} {'gets' if len(keepers) == 1 else 'get'}, too, are no "
                          f"longer sent to {name}, which keeps those that it has until they are deleted there")
        for taken in names:
            if not kept:
                plan.statements.append(
                    f"ALTER PUBLICATION {self.publication(taken)['quoted']} DROP TABLE {self.shares.table['quoted']};")
            elif self.by_regions and len(names) == 1:
                self.alter(plan, taken, conditions_of(kept))
            else:
                above = [it for keeper in self.above(name) for it in self.shares.takers[keeper]]
                lost = dict.fromkeys(map(self.filter_of, above))
                own = self.shares.filters[taken]
                parts = [*([f"({own})"] if own is not None else []), *(f"({it}) IS NOT TRUE" for it in lost)]
                self.alter(plan, taken, " AND ".join(parts))

    def above(self, name: str) -> list[str]:
        """Returns the subscribers that have some of the same rows, and keep them."""
        ranks = self.owners.ranks
        shared = {it for piece in self.owners.division.pieces if name in piece.takers for it in piece.takers}
        return [it for it in ranks[:ranks.index(name)] if it in shared]

    def alter(self, plan: Plan, taken: str, condition: str) -> None:
        """Adds the statement that gives a publication another filter for the table."""
        publication, table = self.publication(taken), self.shares.table["quoted"]
        entry = self.db.entry(publication, self.shares.table["oid"])
        listed = f" ({self.columns_text(entry['numbers'])})" if entry is not None and entry["numbers"] else ""
        where = f"{table}{listed} WHERE ({condition});"
        if len(publication["entries"]) == 1 and not publication["schemas"]:
            plan.statements.append(f"ALTER PUBLICATION {publication['quoted']} SET TABLE {where}")
            return
        plan.statements.append(f"ALTER PUBLICATION {publication['quoted']} DROP TABLE {table};")
        plan.statements.append(f"ALTER PUBLICATION {publication['quoted']} ADD TABLE {where}")

    def publication(self, name: str) -> Publication:
        return self.db.publications[name]

    def taken(self) -> list[str]:
        """Returns the publications that are taken."""
        return list(dict.fromkeys(name for names in self.shares.takers.values() for name in names))

    def filter_of(self, name: str) -> str:
        return self.shares.filters[name] or "true"

    def options(self) -> str:
        """Returns the options of the other publications of the table, so that all its rows are sent in the same way."""
        found = []
        operations = {tuple(self.publication(it)["operations"]) for it in self.taken()}
        if len(operations) == 1 and operations != {tuple(OPERATIONS)}:
            found.append(f"publish = {quoted(', '.join(operations.pop()))}")
        if self.shares.table["kind"] == "p":
            found.append("publish_via_partition_root = true")
        return f" WITH ({', '.join(found)})" if found else ""

    def common_columns(self) -> str:
        """Returns the column list that all other publications of the table have."""
        entries = [self.db.entry(self.publication(it), self.shares.table["oid"]) for it in self.taken()]
        lists = {tuple(it["numbers"]) if it is not None and it["numbers"] else () for it in entries}
        return f" ({self.columns_text(lists.pop())})" if len(lists) == 1 and lists != {()} else ""

    def columns_text(self, numbers: Sequence[int]) -> str:
        quoted_names: dict[str, str] = {it["name"]: it["quoted"] for it in self.shares.table["columns"]}
        return ", ".join(quoted_names[it] for it in names_of(self.shares.table, numbers))


def conditions_of(pieces: Sequence[Piece]) -> str:
    """Returns a condition that is TRUE exactly for the rows of some pieces."""
    texts = [faulty_regions.condition_of(it.codes) for it in pieces]
    if "all rows" in texts:
        return "all rows"
    texts = [without_parentheses(it) for it in texts]
    return texts[0] if len(texts) == 1 else " OR ".join(f"({it})" if " AND " in it else it for it in texts)


def without_parentheses(text: str) -> str:
    """Returns a condition without parentheses around all of it."""
    depth = 0
    for place, part in enumerate(QUOTED.sub(lambda found: "x" * len(found[0]), text)):
        depth += {"(": 1, ")": -1}.get(part, 0)
        if depth == 0 and place < len(text) - 1:
            return text
    return text[1:-1]


def free_publication(db: Database, shares: Shares) -> str:
    """Returns a name for another publication, which no publication and no subscriber has."""
    taken = {*db.publications, *(it.name for it in shares.subscribers)}
    number = 1
    while True:
        end = "_rest" if number == 1 else f"_rest_{number}"
        name = str(shares.table["name"]).encode()[:LONGEST_NAME - len(end)].decode(errors="ignore") + end
        if name not in taken:
            return name
        number += 1


def name_text(name: str) -> str:
    """Returns a name as in SQL."""
    return name if PLAIN_NAME.match(name) else '"' + name.replace('"', '""') + '"'
