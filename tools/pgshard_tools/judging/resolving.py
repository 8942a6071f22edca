"""Builds trees for an expression of which the server has only the text, such as the bounds of a partition.

The server prints the type of each constant and each conversion in such a text. So each operator is the one for exactly
the types of its sides, which is also the server's first choice.
"""

from typing import Any

from pgshard_tools.judging.calls import Call
from pgshard_tools.judging.faults import Unread
from pgshard_tools.judging.node_trees import Tree
from pgshard_tools.judging.parser import kind_of, name_of, written

# Conversions that change no bits.
RELABELED = {("varchar", "text"), ("text", "varchar")}
BOUNDS = {"A_Expr", "BoolExpr", "NullTest", "ColumnRef", "A_Const", "TypeCast", "A_ArrayExpr"}


def resolved(raw: Any, columns: dict[str, dict[str, Any]], operators: dict[int, Call]) -> dict[int, Tree]:
    """Returns trees of the nodes, by the nodes' ids, with the fields that are read: the operator's OID, and the kind of
    a cast."""
    return Resolver(columns, operators).found_of(raw)


class Resolver:
    def __init__(self, columns: dict[str, dict[str, Any]], operators: dict[int, Call]) -> None:
        self.columns = columns
        self.by_types = {(it.name, it.arguments): oid for oid, it in operators.items() if it.is_own}
        self.found: dict[int, Tree] = {}

    def found_of(self, raw: Any) -> dict[int, Tree]:
        self.type_of(raw)
        return self.found

    def type_of(self, raw: Any) -> str:
        """Returns the type of a node, and records its tree."""
        kind = kind_of(raw)
        if kind not in BOUNDS:
            raise Unread(written(raw))
        match kind:
            case "ColumnRef":
                self.found[id(raw)] = Tree("VAR")
                column = self.columns.get(raw.fields[-1].sval)
                return str(column["type"]) if column else ""
            case "A_Const" | "TypeCast":
                return self.constant_or_cast(raw)
            case "A_ArrayExpr":
                types = {self.type_of(it) for it in raw.elements or ()}
                if len(types) != 1:
                    raise Unread(written(raw))
                self.found[id(raw)] = Tree("ARRAYEXPR")
                return f"_{types.pop()}"
            case "A_Expr":
                return self.operator(raw)
        for part in raw.args if kind == "BoolExpr" else [raw.arg]:
            self.type_of(part)
        self.found[id(raw)] = Tree({"BoolExpr": "BOOLEXPR"}.get(kind, "NULLTEST"))
        return "bool"

    def constant_or_cast(self, raw: Any) -> str:
        if kind_of(raw) == "A_Const":
            self.found[id(raw)] = Tree("CONST")
            return "bool" if kind_of(raw.val) == "Boolean" else "int4" if kind_of(raw.val) == "Integer" else "numeric"
        type = name_of(raw.typeName.names)
        type = f"_{type}" if raw.typeName.arrayBounds else type
        if kind_of(raw.arg) == "A_Const" and (raw.arg.isnull or kind_of(raw.arg.val) == "String"):
            self.found[id(raw)] = Tree("CONST")
            return type
        if (self.type_of(raw.arg), type) not in RELABELED or raw.typeName.typmods:
            raise Unread(written(raw), "a conversion in a partition's bounds")
        self.found[id(raw)] = Tree("RELABELTYPE")
        return type

    def operator(self, raw: Any) -> str:
        kind = raw.kind.name
        if raw.lexpr is None or kind not in ("AEXPR_OP", "AEXPR_OP_ANY", "AEXPR_OP_ALL") or len(raw.name) > 1:
            raise Unread(written(raw))
        one, other = self.type_of(raw.lexpr), self.type_of(raw.rexpr)
        if kind != "AEXPR_OP":
            other = other.removeprefix("_")
        is_enum = one == other and any(it["type"] == one and it["kind"] == "e" for it in self.columns.values())
        types = ("anyenum", "anyenum") if is_enum else (one, other)
        oid = self.by_types.get((raw.name[0].sval, types))
        if oid is None:
            raise Unread(written(raw))
        self.found[id(raw)] = Tree("OPEXPR" if kind == "AEXPR_OP" else "SCALARARRAYOPEXPR", {"opno": str(oid)})
        return "bool"
