"""Matches each node of a filter's text with the node of the server's tree from which it was printed.

The text contains the constants as people write them; the tree contains the OIDs of the functions and operators that are
called. If the two do not match, nothing is read.
"""

from typing import Any

from pgshard_tools.judging.faults import Unread
from pgshard_tools.judging.node_trees import Tree
from pgshard_tools.judging.parser import kind_of, written

# The origin of a conversion in the tree: CoercionForm in the server's primnodes.h.
EXPLICIT_CAST, IMPLICIT_CAST = "1", "2"
ONE_ARGUMENT = {"RELABELTYPE": "relabelformat", "COERCEVIAIO": "coerceformat", "ARRAYCOERCEEXPR": "coerceformat"}
TEXT = "25"
SCALAR_KINDS = {
    "OPEXPR": ("AEXPR_OP",), "DISTINCTEXPR": ("AEXPR_DISTINCT",), "NULLIFEXPR": ("AEXPR_NULLIF",),
    "SCALARARRAYOPEXPR": ("AEXPR_OP_ANY", "AEXPR_OP_ALL")}
LISTS = {"COALESCEEXPR": "CoalesceExpr", "MINMAXEXPR": "MinMaxExpr", "BOOLEXPR": "BoolExpr", "ROWEXPR": "RowExpr"}
BOOLEANS = {"and": "AND_EXPR", "or": "OR_EXPR", "not": "NOT_EXPR"}


class Mismatch(Exception):
    """The text and the tree do not match."""


def paired(raw: Any, tree: Tree) -> dict[int, Tree]:
    """Returns the trees of the text's nodes, by the nodes' ids."""
    found: dict[int, Tree] = {}
    try:
        pair(raw, tree, found)
    except (Mismatch, KeyError, ValueError, AttributeError, TypeError) as fault:
        raise Unread(written(raw), "its text does not match the server's tree") from fault
    return found


def pair(raw: Any, tree: Tree, found: dict[int, Tree]) -> None:
    form = form_of_cast(tree)
    if form is not None:
        pair_cast(raw, tree, form, found)
        return
    found[id(raw)] = tree
    kind = kind_of(raw)
    if tree.kind == "CONST":
        want(is_constant(raw, tree))
    elif tree.kind == "VAR":
        want(kind == "ColumnRef")
    elif tree.kind in SCALAR_KINDS:
        want(kind == "A_Expr" and raw.kind.name in SCALAR_KINDS[tree.kind])
        pair_operator(raw, tree, found)
    elif tree.kind == "FUNCEXPR":
        want(kind == "FuncCall")
        pair_all(raw.args or (), tree.trees("args"), found)
    elif tree.kind in LISTS:
        want(kind == LISTS[tree.kind] and (kind != "BoolExpr" or raw.boolop.name == BOOLEANS[tree.word("boolop")]))
        pair_all(raw.args, parts_of(tree), found)
    else:
        pair_other(raw, tree, found)


def parts_of(tree: Tree) -> list[Tree]:
    """Returns the arguments. If the first argument of AND is an AND, as for BETWEEN, the parser flattens it into the
    outer one; the same is done for OR."""
    parts = tree.trees("args")
    is_joined = bool(parts) and tree.word("boolop") in ("and", "or") and parts[0].kind == "BOOLEXPR"
    return [*parts_of(parts[0]), *parts[1:]] if is_joined and parts[0].word("boolop") == tree.word("boolop") else parts


def pair_other(raw: Any, tree: Tree, found: dict[int, Tree]) -> None:
    """Pairs kinds of nodes that have a form of their own."""
    kind = kind_of(raw)
    match tree.kind:
        case "NULLTEST" | "BOOLEANTEST" | "COLLATEEXPR":
            want(kind == {"NULLTEST": "NullTest", "BOOLEANTEST": "BooleanTest"}.get(tree.kind, "CollateClause"))
            pair(raw.arg, argument(tree), found)
        case "CASEEXPR":
            want(kind == "CaseExpr")
            pair_case(raw, tree, found)
        case "ARRAYEXPR":
            inner = raw.arg if kind == "TypeCast" else raw
            want(kind_of(inner) == "A_ArrayExpr")
            pair_all(inner.elements or (), tree.trees("elements"), found)
        case "ROWCOMPAREEXPR":
            want(kind == "A_Expr" and kind_of(raw.lexpr) == kind_of(raw.rexpr) == "RowExpr")
            pair_all(raw.lexpr.args, tree.trees("largs"), found)
            pair_all(raw.rexpr.args, tree.trees("rargs"), found)
        case _:
            raise Mismatch(tree.kind)


def form_of_cast(tree: Tree) -> str | None:
    """Returns how a conversion is written, or None if the tree is not a conversion."""
    if tree.kind in ONE_ARGUMENT:
        return tree.word(ONE_ARGUMENT[tree.kind])
    is_cast = tree.kind == "FUNCEXPR" and tree.word("funcformat") in (EXPLICIT_CAST, IMPLICIT_CAST)
    return tree.word("funcformat") if is_cast else None


def pair_cast(raw: Any, tree: Tree, form: str, found: dict[int, Tree]) -> None:
    """Pairs a conversion, which the text may omit if it is implicit."""
    inner = argument(tree)
    if is_shortened(raw, tree, inner):
        found |= {id(raw): tree, id(raw.arg): inner}
        return
    if kind_of(raw) == "TypeCast":
        shown: dict[int, Tree] = {id(raw): tree}
        try:
            pair(raw.arg, inner, shown)
        except Mismatch:
            if form != IMPLICIT_CAST:
                raise
        else:
            found.update(shown)
            return
    want(form == IMPLICIT_CAST)
    pair(raw, inner, found)


def is_shortened(raw: Any, tree: Tree, inner: Tree) -> bool:
    """Returns whether it is a constant that is cut or rounded to a type with a length: the text has the type only
    once."""
    is_text = kind_of(raw) == "TypeCast" and kind_of(raw.arg) == "A_Const" and not raw.arg.isnull and kind_of(
        raw.arg.val) == "String"
    return is_text and bool(raw.typeName.typmods) and tree.kind == "FUNCEXPR" and inner.kind == "CONST" and inner.word(
        "consttype") == tree.word("funcresulttype")


def argument(tree: Tree) -> Tree:
    """Returns the first argument, or the only one."""
    found = tree.tree("arg") or next(iter(tree.trees("args")), None)
    if found is None:
        raise Mismatch(tree.kind)
    return found


def pair_operator(raw: Any, tree: Tree, found: dict[int, Tree]) -> None:
    if tree.kind == "SCALARARRAYOPEXPR":
        want((raw.kind.name == "AEXPR_OP_ANY") == (tree.word("useOr") == "true"))
    sides = [raw.rexpr] if raw.lexpr is None else [raw.lexpr, raw.rexpr]
    pair_all(sides, tree.trees("args"), found)


def pair_case(raw: Any, tree: Tree, found: dict[int, Tree]) -> None:
    """Pairs a CASE. For `CASE x WHEN y`, the tree has the comparison of x and y, but the text only y."""
    compared = tree.tree("arg")
    want((compared is None) == (raw.arg is None))
    if compared is not None:
        pair(raw.arg, compared, found)
    branches = tree.trees("args")
    want(len(branches) == len(raw.args))
    for branch, its in zip(raw.args, branches):
        condition, result = its.tree("expr"), its.tree("result")
        if condition is None or result is None:
            raise Mismatch("CASEWHEN")
        if compared is not None:
            want(condition.kind == "OPEXPR" and without_casts(condition.trees("args")[0]).kind == "CASETESTEXPR")
            found[id(branch)] = condition
            condition = condition.trees("args")[1]
        pair(branch.expr, condition, found)
        pair(branch.result, result, found)
    default = tree.tree("defresult")
    if raw.defresult is not None:
        want(default is not None)
        pair(raw.defresult, default or tree, found)
    else:
        want(default is None or default.kind == "CONST" and default.word("constisnull") == "true")


def without_casts(tree: Tree) -> Tree:
    while form_of_cast(tree) == IMPLICIT_CAST:
        tree = argument(tree)
    return tree


def pair_all(raws: Any, trees: list[Tree], found: dict[int, Tree]) -> None:
    want(len(raws) == len(trees))
    for raw, tree in zip(raws, trees):
        pair(raw, tree, found)


def is_constant(raw: Any, tree: Tree) -> bool:
    """Returns whether a text is one that the server prints for a constant: a text constant is followed by its type,
    except for the field of EXTRACT; a number need not be."""
    if kind_of(raw) == "TypeCast":
        return kind_of(raw.arg) == "A_Const"
    is_typed = kind_of(raw) == "A_Const" and not raw.isnull
    return is_typed and (kind_of(raw.val) != "String" or tree.word("consttype") == TEXT)


def want(is_so: bool) -> None:
    if not is_so:
        raise Mismatch
