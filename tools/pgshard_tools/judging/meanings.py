"""What the server reports about constants, and about the functions and operators that filters and constraints call.

All of it comes from the judged server: the trees of its expressions contain OIDs, and pg_proc and pg_operator describe
these. Nothing is concluded from a name.
"""

import json
from dataclasses import replace
from typing import Any, Protocol

from pgshard_tools.judging.calls import Call
from pgshard_tools.judging.database import Database
from pgshard_tools.judging.faults import NO_ANSWER, Fault, Unread
from pgshard_tools.judging.node_trees import Tree, has_conflict, numbers_in, tree_of
from pgshard_tools.judging.pairing import paired
from pgshard_tools.judging.parser import written
from pgshard_tools.judging.resolving import resolved

TREES = """
SELECT json_build_object(
    'filters', (SELECT coalesce(json_agg(json_build_array(pubname, prrelid::bigint, prqual::text)), '[]')
        FROM pg_publication_rel JOIN pg_publication p ON p.oid = prpubid WHERE prqual IS NOT NULL),
    'generated', (SELECT coalesce(json_agg(json_build_array(attname, adrelid::bigint, adbin::text)), '[]')
        FROM pg_attrdef JOIN pg_attribute ON attrelid = adrelid AND attnum = adnum
        WHERE attgenerated = 's' AND adrelid >= 16384),
    'check', (SELECT coalesce(json_agg(json_build_array(conname, conrelid::bigint, conbin::text)), '[]')
        FROM pg_constraint WHERE contype = 'c' AND conrelid >= 16384),
    'collations', (SELECT json_agg(json_build_array(
        c.oid::bigint, CASE WHEN c.collnamespace = 'pg_catalog'::regnamespace THEN c.collname
        ELSE format('"%s"."%s"', replace(nspname, '"', '""'), replace(c.collname, '"', '""')) END, collisdeterministic))
        FROM pg_collation c JOIN pg_namespace n ON n.oid = c.collnamespace),
    'ordered_otherwise', (SELECT coalesce(json_agg(partrelid::bigint), '[]') FROM pg_partitioned_table WHERE EXISTS (
        SELECT FROM unnest(partattrs::int2[], partcollation::oid[]) AS k (number, sorted_by)
        LEFT JOIN pg_attribute a ON a.attrelid = partrelid AND a.attnum = k.number
        WHERE k.sorted_by <> coalesce(a.attcollation, 0))),
    'is_bytewise', (SELECT datlocprovider = 'c' AND datcollate IN ('C', 'POSIX') FROM pg_database
        WHERE datname = current_database()),
    'encoding', current_setting('server_encoding'),
    'operators', (SELECT json_agg(oid::bigint) FROM pg_operator WHERE oprnamespace = 'pg_catalog'::regnamespace
        AND oprname IN ('=', '<>', '<', '<=', '>', '>=')))
"""
CALLS = """
SELECT json_build_object(
    'types', (SELECT coalesce(json_agg(json_build_array(oid::bigint, typname)), '[]') FROM pg_type
        WHERE oid = ANY ('{types}'::oid[])),
    'functions', (SELECT coalesce(json_agg(json_build_object(
        'oid', p.oid::bigint, 'name', p.proname, 'is_own', p.pronamespace = 'pg_catalog'::regnamespace,
        'arguments', (SELECT coalesce(json_agg(t.typname ORDER BY a.place), '[]')
            FROM unnest(p.proargtypes) WITH ORDINALITY AS a (type, place) JOIN pg_type t ON t.oid = a.type),
        'result', r.typname, 'is_strict', p.proisstrict, 'volatility', p.provolatile)), '[]')
        FROM pg_proc p JOIN pg_type r ON r.oid = p.prorettype WHERE p.oid = ANY ('{functions}'::oid[])),
    'operators', (SELECT coalesce(json_agg(json_build_object(
        'oid', o.oid::bigint, 'name', o.oprname, 'is_own', o.oprnamespace = 'pg_catalog'::regnamespace,
        'arguments', array_remove(ARRAY[l.typname, r.typname], NULL),
        'result', t.typname, 'is_strict', p.proisstrict, 'volatility', p.provolatile)), '[]')
        FROM pg_operator o JOIN pg_type t ON t.oid = o.oprresult JOIN pg_type r ON r.oid = o.oprright
        JOIN pg_proc p ON p.oid = o.oprcode LEFT JOIN pg_type l ON l.oid = o.oprleft
        WHERE o.oid = ANY ('{operators}'::oid[])))
"""


class Asking(Protocol):
    """A session with the server. Returns the answer of a query, or '' if it fails."""

    def ask(self, query: str) -> str: ...

    def ask_for(self, seconds: int, query: str) -> str: ...


class Meanings:
    """What the server reports. Each question is asked only once."""

    def __init__(self, session: Asking, db: Database) -> None:
        self.session = session
        found = self.asked(TREES)
        self.texts = texts_of(found, db)
        trees = " ".join(it for listed in self.texts.values() for it in listed)
        functions = numbers_in(trees, ("funcid",))
        operators = numbers_in(trees, ("opno", "opnos")) | set(found["operators"])
        types = numbers_in(trees, ("funcresulttype", "opresulttype"))
        answer = self.asked(CALLS.format(functions=array(functions), operators=array(operators), types=array(types)))
        self.types: dict[int, str] = dict(answer["types"])
        self.functions = {it["oid"]: call_of(it) for it in answer["functions"]}
        self.operators = {it["oid"]: call_of(it) for it in answer["operators"]}
        # The collations that distinguish texts exactly as their bytes do.
        self.collations: dict[str, str] = {str(oid): name for oid, name, is_deterministic in found["collations"]
                                           if is_deterministic}
        # Whether the database's own order of texts is that of their bytes, and whether these are UTF8.
        self.is_bytewise, self.is_utf8 = bool(found["is_bytewise"]), found["encoding"] == "UTF8"
        # Tables whose partitions are distinguished by another collation than that of their columns.
        self.ordered_otherwise = set(found["ordered_otherwise"])
        self.values: dict[str, Any] = {}

    def asked(self, query: str) -> Any:
        # This is part of reading the catalog, and has the same time limit as the rest of it.
        answer = self.session.ask_for(120, query)
        if not answer:
            raise Fault(NO_ANSWER, "the server does not say what its filters call, so nothing is judged")
        return json.loads(answer)

    def top(self, relations: list[int], text: str) -> Tree | None:
        """Returns the server's tree of a text, or None if there is none."""
        found = [it for relation in relations for it in self.texts.get((relation, text), ())]
        return tree_of(found[0]) if found else None

    def of(self, raw: Any, text: str, relations: list[int], columns: dict[str, dict[str, Any]]) -> dict[int, Tree]:
        """Returns the trees of a text's nodes. Bounds of partitions have no tree: their operators are those of the
        types."""
        found = [it for relation in relations for it in self.texts.get((relation, text), ())]
        if not found:
            if self.ordered_otherwise & set(relations):
                raise Unread(text, "partitions under a collation other than the column's")
            return resolved(raw, columns, self.operators)
        trees = [tree_of(it) for it in found]
        if any(without_places(it) != without_places(trees[0]) for it in trees):
            raise Unread(text, "the server has two trees of this text")
        if has_conflict(trees[0]):
            raise Unread(text, "it has texts of two collations, so the server fails; write COLLATE after one of them")
        return paired(raw, trees[0])

    def function(self, tree: Tree) -> Call | None:
        return self.with_result(self.functions.get(tree.number("funcid")), tree, "funcresulttype")

    def operator(self, tree: Tree) -> Call | None:
        return self.with_result(self.operators.get(tree.number("opno")), tree, "opresulttype")

    def with_result(self, found: Call | None, tree: Tree, name: str) -> Call | None:
        """Returns the call. If its declared result type is polymorphic, it is replaced by the type in the tree."""
        if found is None or not found.result.startswith("any") or not tree.word(name):
            return found
        return replace(found, result=self.types.get(tree.number(name), found.result))

    def is_of_bytes(self, tree: Tree) -> bool:
        """Returns whether a call involves no texts, or only texts that differ exactly if their bytes do."""
        return tree.word("inputcollid") in ("", "0") or tree.word("inputcollid") in self.collations

    def constant(self, raw: Any, sql: str) -> str | None:
        """Returns the value of an expression without columns, as the server prints it; raises Unread if it fails."""
        if sql not in self.values:
            answer = self.session.ask(f"SELECT json_build_array(({sql})::text)")
            self.values[sql] = json.loads(answer) if answer else None
        value = self.values[sql]
        if value is None:
            raise Unread(written(raw), "the server cannot evaluate it, so the filter fails at each row")
        text: str | None = value[0]
        return text

    def is_evaluated(self, sql: str) -> bool:
        """Returns whether the server can evaluate an expression without columns."""
        if sql not in self.values:
            answer = self.session.ask(f"SELECT json_build_array(({sql})::text)")
            self.values[sql] = json.loads(answer) if answer else None
        return self.values[sql] is not None


def texts_of(found: Any, db: Database) -> dict[tuple[int, str], set[str]]:
    """Returns the trees of each text of a filter or a CHECK, by the relation and the text. They are looked up by name,
    since asking for the texts again would wait for locked tables."""
    trees = {("filter", name, relation): tree for name, relation, tree in found["filters"]}
    for kind in "check", "generated":
        trees |= {(kind, name, relation): tree for name, relation, tree in found[kind]}
    texts = [("filter", name, entry["oid"], entry["filter"])
             for name, publication in db.publications.items() for entry in publication["entries"]]
    texts += [("check", check["name"], table["oid"], check["text"]) for table in db.tables for check in table["checks"]]
    texts += [("generated", column["name"], table["oid"], column["generation"])
              for table in db.tables for column in table["columns"]]
    by_text: dict[tuple[int, str], set[str]] = {}
    for kind, name, relation, text in texts:
        if text is not None and (kind, name, relation) in trees:
            by_text.setdefault((relation, text), set()).add(trees[kind, name, relation])
    return by_text


def call_of(found: dict[str, Any]) -> Call:
    return Call(found["name"], tuple(found["arguments"]), found["result"], found["is_strict"], found["volatility"],
                found["is_own"])


def array(numbers: set[int]) -> str:
    return "{" + ",".join(str(it) for it in sorted(numbers)) + "}"


PLACES = {"location", "varattno", "varattnosyn", "varnosyn"}


def without_places(part: Any) -> Any:
    """Returns a tree without the positions of its parts in the text, and of its columns in the table."""
    if isinstance(part, Tree):
        return part.kind, [(name, without_places(it)) for name, it in part.fields.items() if name not in PLACES]
    return [without_places(it) for it in part] if isinstance(part, list) else part
