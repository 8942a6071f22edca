"""Parses the server's tree of an expression, which is printed as a `pg_node_tree`: `{OPEXPR :opno 96 :args ({VAR ..}
{CONST ..})}`.

The tree contains the OIDs of the functions and operators that the server calls, unlike the text of a filter.
"""

import re
from dataclasses import dataclass, field
from typing import TypeAlias

TOKEN = re.compile(r"[{}()]|(?:\\.|[^\s{}()\\])+", re.S)

Part: TypeAlias = "Tree | list[Part] | str"


@dataclass
class Tree:
    """A node: its kind in capitals, and its fields by name."""

    kind: str
    fields: dict[str, "Part"] = field(default_factory=dict)

    def number(self, name: str) -> int:
        """Returns a field that is a number."""
        value = self.fields[name]
        if not isinstance(value, str):
            raise ValueError(name)
        return int(value)

    def word(self, name: str) -> str:
        value = self.fields.get(name)
        return value if isinstance(value, str) else ""

    def tree(self, name: str) -> "Tree | None":
        """Returns a field that is a node, or None if it is null."""
        value = self.fields.get(name)
        return value if isinstance(value, Tree) else None

    def trees(self, name: str) -> list["Tree"]:
        """Returns a field that is a list of nodes."""
        value = self.fields.get(name)
        return [it for it in value if isinstance(it, Tree)] if isinstance(value, list) else []


def tree_of(text: str) -> Tree:
    """Parses a tree; raises ValueError if the text has another form."""
    tokens = TOKEN.findall(text)
    part, at = part_at(tokens, 0)
    if not isinstance(part, Tree) or at != len(tokens):
        raise ValueError("another form of a tree")
    return part


def part_at(tokens: list[str], at: int) -> tuple[Part, int]:
    """Returns the part that begins at a token, and where it ends."""
    if tokens[at] == "{":
        return node_at(tokens, at)
    if tokens[at] == "(":
        return list_at(tokens, at)
    return tokens[at], at + 1


def list_at(tokens: list[str], at: int) -> tuple[Part, int]:
    found: list[Part] = []
    at += 1
    while tokens[at] != ")":
        part, at = part_at(tokens, at)
        found.append(part)
    return found, at + 1


def node_at(tokens: list[str], at: int) -> tuple[Part, int]:
    tree = Tree(tokens[at + 1])
    at += 2
    while tokens[at] != "}":
        if not tokens[at].startswith(":"):
            raise ValueError("another form of a node")
        name = tokens[at][1:]
        value, at = part_at(tokens, at + 1)
        # A constant's value consists of its length and its bytes, which are several tokens.
        while tokens[at] != "}" and not tokens[at].startswith(":"):
            _, at = part_at(tokens, at)
        tree.fields[name] = value
    return tree, at + 1


def numbers_in(text: str, names: tuple[str, ...]) -> set[int]:
    """Returns the OIDs in the fields with these names in a tree's text; a field may contain a list of them."""
    found: set[int] = set()
    for name in names:
        for listed in re.findall(rf" :{name} (\d+|\(o[ \d]*\))", text):
            found.update(int(it) for it in re.findall(r"\d+", listed))
    return found


# The fields for the collation of a node's result, and for the collation under which it takes its arguments.
RESULT_COLLATIONS = (
    "varcollid", "constcollid", "funccollid", "opcollid", "resultcollid", "collOid", "casecollid", "coalescecollid",
    "minmaxcollid", "array_collid")


def has_conflict(tree: Tree) -> bool:
    """Returns whether a call has texts of several collations, none of which takes precedence. The server accepts such
    an expression, and fails when it evaluates it."""
    is_here = tree.word("inputcollid") == "0" and any(map(is_collated, tree.trees("args")))
    return is_here or has_conflict_of_rows(tree) or any(map(has_conflict, parts_of(tree)))


def has_conflict_of_rows(tree: Tree) -> bool:
    """Returns the same for the pairs of two rows that are compared."""
    numbers = tree.fields.get("inputcollids")
    pairs = zip(numbers[1:] if isinstance(numbers, list) else (), tree.trees("largs"), tree.trees("rargs"))
    return any(number == "0" and (is_collated(one) or is_collated(other)) for number, one, other in pairs)


def is_collated(tree: Tree) -> bool:
    """Returns whether the result of a node has a collation."""
    return any(tree.word(name) not in ("", "0") for name in RESULT_COLLATIONS)


def parts_of(tree: Tree) -> list[Tree]:
    """Returns the children of a node."""
    listed = [value if isinstance(value, list) else [value] for value in tree.fields.values()]
    return [it for values in listed for it in values if isinstance(it, Tree)]
