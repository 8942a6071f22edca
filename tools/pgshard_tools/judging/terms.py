"""Converts the server's tree of an expression to operands of comparisons, and to formulas.

Each kind of node has one function here, which says when it is NULL.
"""

from dataclasses import replace
from typing import Any, Callable, Sequence

from pgshard_tools.judging import applied, arithmetic, comparing, functions, moments, parser, signatures
from pgshard_tools.judging.arithmetic import Failing, Failure
from pgshard_tools.judging.calls import Call
from pgshard_tools.judging.constants import SAME_VALUE, as_value, cast_value, number, text_of, typed
from pgshard_tools.judging.conversions import cast_truth, collated, is_sorted, listed, of_type, text_in, truth_of
from pgshard_tools.judging.faults import FAILURES, Unread
from pgshard_tools.judging.formulas import Const, Formula, IsNull, Subject, both, chosen, either, negation, tested
from pgshard_tools.judging.meanings import Meanings
from pgshard_tools.judging.node_trees import Tree
from pgshard_tools.judging.operands import Array, Choice, DayOf, Derived, Extreme, Operand, Ref, Truth, Value, Whole
from pgshard_tools.judging.pairing import IMPLICIT_CAST, form_of_cast
from pgshard_tools.judging.parser import faithful, kind_of, name_of, side_text, written
from pgshard_tools.judging.points import finite
from pgshard_tools.judging.server_types import INTEGERS, LABELS, comparable

COMPARISONS = {"=", "<>", "<", "<=", ">", ">="}
# Collations that distinguish texts exactly as their bytes do.
COLLATIONS = {"C", "POSIX", "default", "ucs_basic"}
# Node trees without columns that the server evaluates once.
CONSTANTS = {"CONST", "FUNCEXPR", "OPEXPR", "RELABELTYPE", "COLLATEEXPR"}


class Reader:
    """Reads expressions over the columns of one table, whose rows may be published as those of the other relations."""

    def __init__(self, columns: Sequence[dict[str, Any]], meanings: Meanings, relations: Sequence[int]) -> None:
        self.columns = {column["name"]: column for column in columns}
        self.meanings = meanings
        self.relations = list(relations)
        self.trees: dict[int, Tree] = {}
        self.failing = Failing()
        # The expressions of generated columns that are read, and what is enforced for these.
        self.kept: list[Any] = []
        self.held: dict[str, Formula] = {}
        # When a subject is NULL, if that is not exactly when a column is.
        self.nulls: dict[Subject, Formula] = {}

    def formula(self, text: str) -> Formula:
        """Returns the formula of a filter or a constraint, or raises Unread."""
        return self.read(text)[0]

    def read(self, text: str) -> tuple[Formula, list[Failure]]:
        """Returns the formula, and when the server fails for it; or raises Unread."""
        try:
            raw = parser.parsed(text)
            self.trees = self.meanings.of(raw, text, self.relations, self.columns)
            self.failing = Failing()
            return self.condition(raw), self.failing.found
        except FAILURES as fault:
            # An unforeseen tree does not affect the other tables.
            raise Unread(text, f"a form that judge does not know ({type(fault).__name__})") from fault

    def subject(self, name: str) -> Subject:
        column = self.columns.get(name)
        if column is None:
            raise Unread(name, "it is not a user column of the table")
        type = f"enum {column['type']}" if column["kind"] == "e" else column["type"]
        if column["kind"] not in "be" or not column["is_deterministic"]:
            # For a domain, or for texts that can be equal although their bytes differ, only tests for NULL are read.
            type = f"type of column {name}"
        return Subject(
            sql=column["quoted"], type=type, columns=(name,), modifier=column["modifier"], is_column=True,
            collation=self.order_of(column["collation"]), own_collation=self.order_of(column["collation"]),
            labels=tuple(column["labels"] or ()) if type.startswith("enum ") else ())

    def order_of(self, collation: str | None) -> str | None:
        """Returns a collation by name. The database's own may be byte order."""
        return "C" if collation == "default" and self.meanings.is_bytewise else collation

    def condition(self, node: Any) -> Formula:
        """Returns a node as a formula."""
        return self.as_truth(node, self.operand(node))

    def as_truth(self, node: Any, operand: Operand) -> Formula:
        match operand:
            case Truth():
                return operand.formula
            case Value() if operand.value is None or isinstance(operand.value, bool):
                return Const(operand.value)
            case Choice():
                one, other = self.as_truth(node, operand.one), self.as_truth(node, operand.other)
                return chosen(operand.condition, one, other)
        raise Unread(written(node))

    def operand(self, node: Any) -> Operand:
        tree = self.trees.get(id(node))
        if tree is None and kind_of(node) != "RowExpr":
            raise Unread(written(node), "it is not in the server's tree")
        if tree is not None and tree.kind in ("FUNCEXPR", "OPEXPR") and self.is_constant(tree):
            return self.constant(node, tree)
        read = getattr(self, f"read_{kind_of(node)}", None)
        if read is None:
            raise Unread(written(node))
        found: Operand = read(node)
        return found

    def is_constant(self, tree: Tree) -> bool:
        """Returns whether it contains no column, and calls only immutable functions."""
        if tree.kind not in CONSTANTS:
            return False
        call = self.called(tree) if tree.kind in ("FUNCEXPR", "OPEXPR") else None
        parts = [*tree.trees("args"), *([tree.fields["arg"]] if "arg" in tree.fields else [])]
        is_known = call is None or call.is_immutable
        return is_known and all(isinstance(it, Tree) and self.is_constant(it) for it in parts) and (
            tree.kind == "CONST" or bool(parts))

    def constant(self, node: Any, tree: Tree) -> Operand:
        """An expression without columns. The server evaluates it; if that fails, it fails for each row."""
        call = self.call(node)
        text = self.meanings.constant(node, faithful(node))
        if call.result.startswith("_"):
            return listed(node, call.result.removeprefix("_"), text, False)
        return typed(call.result, text, is_enum=False)

    def called(self, tree: Tree) -> Call | None:
        return self.meanings.function(tree) if tree.kind == "FUNCEXPR" else self.meanings.operator(tree)

    def call(self, node: Any) -> Call:
        """Returns the function or the operator that the server calls for a node."""
        tree = self.trees.get(id(node))
        found = self.called(tree) if tree is not None and {"funcid", "opno"} & tree.fields.keys() else None
        if found is None or tree is None or not found.is_own:
            raise Unread(written(node), "it calls a function or an operator that is not the server's own")
        if not self.meanings.is_of_bytes(tree):
            raise Unread(written(node), "texts that can be equal although their bytes differ")
        return found

    def comparison(self, node: Any, name: str, one: Operand, other: Operand) -> Formula:
        """Returns a comparison, if the operator belongs to two types whose order judge knows."""
        call = self.call(node)
        if call.name != name or not comparable(*call.arguments):
            raise Unread(written(node), f"the operator {call.signature}")
        collation = self.order_of(self.meanings.collations.get(self.trees[id(node)].word("inputcollid")))
        if collation is not None:
            one, other = collated(one, collation), collated(other, collation)
        return comparing.comparison(written(node), name, one, other, self.null_of)

    def null_of(self, subject: Subject) -> Formula:
        """Returns `subject IS NULL`. If that is so exactly if one of its columns is NULL, the formula tests these
        columns."""
        if subject.is_column:
            return IsNull(subject)
        if subject.is_never_null:
            return Const(False)
        if subject.is_strict and subject.is_total:
            return either(*(IsNull(self.subject(name)) for name in subject.columns))
        return IsNull(subject)

    def read_ColumnRef(self, node: Any) -> Operand:
        if len(node.fields) != 1 or kind_of(node.fields[0]) != "String":
            raise Unread(written(node))
        computed = self.computed(node.fields[0].sval)
        return of_type(self.subject(node.fields[0].sval)) if computed is None else computed

    def computed(self, name: str) -> Operand | None:
        """Returns the expression of a stored generated column, or None if it is not read."""
        column = self.columns.get(name)
        if column is None or not column["generation"] or column["kind"] != "b" or not column["is_deterministic"]:
            return None
        before, self.failing = self.failing, Failing()
        try:
            # A row for which the expression fails is not in the table.
            operand = self.generated(column["generation"])
        except (Unread, *FAILURES):
            return None
        finally:
            self.failing = before
        if column["not_null"] and operand is not None:
            self.held[f"column {name} NOT NULL"] = negation(comparing.is_null(operand, self.null_of))
        if isinstance(operand, (Ref, Whole)) and column["type"] in SAME_VALUE.get(operand.type, ()):
            return replace(operand, type=column["type"])
        return operand

    def generated(self, text: str) -> Operand | None:
        """Returns the expression of a generated column, if its conversion to the column's type changes no value."""
        top = self.meanings.top(self.relations, text)
        if top is None or not self.keeps_value(top):
            return None
        raw = parser.parsed(text)
        self.trees |= self.meanings.of(raw, text, self.relations, self.columns)
        self.kept.append(raw)
        return self.operand(raw)

    def keeps_value(self, tree: Tree) -> bool:
        """Returns whether an implicit conversion changes no value."""
        if form_of_cast(tree) != IMPLICIT_CAST or tree.kind == "RELABELTYPE":
            return True
        call = self.meanings.function(tree) if tree.kind == "FUNCEXPR" else None
        return call is not None and len(call.arguments) == 1 and call.result in SAME_VALUE.get(call.arguments[0], ())

    def read_A_Const(self, node: Any) -> Operand:
        if node.isnull:
            return Value("text", None)
        match kind_of(node.val):
            case "Integer":
                return Value("int4", finite(node.val.ival))
            case "Boolean":
                return Truth(Const(node.val.boolval))
            case "Float":
                return number(str(node.val.fval))
            case "String":
                return Value("text", node.val.sval)
            case "BitString":
                return Value("bit", node.val.bsval)
        raise Unread(written(node))

    def read_TypeCast(self, node: Any) -> Operand:
        type, form = name_of(node.typeName.names), written(node)
        if node.typeName.arrayBounds:
            return self.array(node, type)
        modifier = bool(node.typeName.typmods)
        constant = node.arg if kind_of(node.arg) == "A_Const" else None
        if constant is not None and constant.isnull:
            return Value(type, None)
        if constant is not None and kind_of(constant.val) == "BitString" and type in ("bit", "varbit"):
            return Value(type, constant.val.bsval)
        if constant is not None and kind_of(constant.val) == "String":
            if modifier:
                raise Unread(form, "a constant with a length")
            return typed(type, constant.val.sval, self.is_enum(type))
        return self.cast(node, form, type, modifier, self.operand(node.arg))

    def is_enum(self, type: str) -> bool:
        return any(column["type"] == type and column["kind"] == "e" for column in self.columns.values())

    def array(self, node: Any, type: str) -> Operand:
        """Reads a list, as ARRAY[..] or as text."""
        inner = node.arg
        if kind_of(inner) == "A_ArrayExpr":
            return self.read_A_ArrayExpr(inner)
        if kind_of(inner) == "TypeCast":
            return self.read_TypeCast(inner)
        if kind_of(inner) == "A_Const" and not inner.isnull and kind_of(inner.val) == "String":
            return listed(node, type, inner.val.sval, self.is_enum(type))
        if kind_of(inner) == "A_Const" and inner.isnull:
            return Array(None)
        raise Unread(written(node))

    def read_A_ArrayExpr(self, node: Any) -> Operand:
        return Array(tuple(as_value(self.operand(part)) for part in node.elements or ()))

    def cast(self, node: Any, form: str, type: str, modifier: bool, operand: Operand) -> Operand:
        """Reads a conversion, which is NULL exactly if its operand is."""
        if isinstance(operand, Choice):
            return Choice(operand.condition, self.cast(node, form, type, modifier, operand.one),
                          self.cast(node, form, type, modifier, operand.other))
        self.want_known_cast(node, form)
        if modifier:
            return self.of_function(self.call(node), form, [operand])
        if isinstance(operand, Value):
            return cast_value(form, type, operand)
        if isinstance(operand, Truth):
            return cast_truth(form, type, operand)
        whole = applied.as_whole(form, type, operand, self.context())
        if whole is not None:
            return whole
        if isinstance(operand, Derived):
            if operand.ref.type == "timestamp" and type == "date":
                found = functions.opaque(form, "date", True, [operand])
                return moments.as_date(form, operand, found) if isinstance(found, Ref) else found
            operand = operand.ref
        if isinstance(operand, Extreme) and all(
                isinstance(it, (Ref, Whole, Value)) and type in SAME_VALUE.get(it.type, ()) for it in operand.parts):
            # These conversions preserve the order.
            parts = tuple(self.cast(node, form, type, modifier, it) for it in operand.parts)
            return Extreme(operand.is_greatest, parts)
        if isinstance(operand, Whole) and type in SAME_VALUE[operand.type]:
            return replace(operand, type=type, sql=form)
        shorter = self.shorter(form, type, operand)
        if shorter is not None:
            return shorter
        if isinstance(operand, Ref):
            return self.cast_subject(node, form, type, operand)
        return self.of_function(self.call(node), form, [operand])

    def shorter(self, form: str, type: str, operand: Operand) -> Operand | None:
        """Reads the conversion of a whole number to a smaller type, which fails if it does not fit."""
        whole = arithmetic.whole_of(operand)
        if whole is None or type not in INTEGERS or type in SAME_VALUE[whole.type]:
            return None
        found = replace(whole, type=type, sql=form)
        arithmetic.note_failures(form, found, self.failing)
        return found

    def want_known_cast(self, node: Any, form: str) -> None:
        """Makes sure that the conversion is the server's own, and immutable."""
        tree = self.trees[id(node)]
        if tree.kind == "FUNCEXPR" and not self.call(node).is_immutable:
            raise Unread(form, "a cast that is not the server's own, or that depends on settings")

    def cast_subject(self, node: Any, form: str, type: str, operand: Ref) -> Operand:
        """Reads a column as another type, if each value is unchanged or keeps its place in the order."""
        if type in SAME_VALUE.get(operand.type, ()):
            return Ref(operand.subject, type)
        if operand.type == "timestamp" and type == "date":
            return DayOf(operand.subject)
        if operand.type in INTEGERS and type == "text" and self.trees[id(node)].kind == "COERCEVIAIO":
            return functions.opaque(form, "text", True, (operand,))
        if self.trees[id(node)].kind != "FUNCEXPR":
            raise Unread(form, "a cast that fails at some rows, or changes values")
        return self.of_function(self.call(node), form, [operand])

    def read_A_Expr(self, node: Any) -> Operand:
        name, form = name_of(node.name), written(node)
        kind = node.kind.name
        if kind in ("AEXPR_OP_ANY", "AEXPR_OP_ALL"):
            return Truth(self.of_list(node, name, form, is_any=kind == "AEXPR_OP_ANY"))
        if node.lexpr is None:
            return self.of_prefix(node, name, self.operand(node.rexpr))
        if kind_of(node.lexpr) == "RowExpr":
            return Truth(self.of_rows(node, name))
        one, other = self.operand(node.lexpr), self.operand(node.rexpr)
        match kind:
            case "AEXPR_OP":
                return self.of_operator(node, name, one, other, (node.lexpr, node.rexpr))
            case "AEXPR_DISTINCT":
                self.comparison(node, "=", one, other)
                return Truth(comparing.distinct(form, one, other, self.null_of))
            case "AEXPR_NULLIF":
                # nullif(a, b) is NULL if a = b is TRUE, and otherwise a.
                return Choice(self.comparison(node, "=", one, other), Value("text", None), one)
        raise Unread(form)

    def of_prefix(self, node: Any, name: str, operand: Operand) -> Operand:
        """Reads a prefix operator, which is NULL exactly if its operand is."""
        call, form = self.call(node), faithful(node)
        if call.name == name and call.arguments[0] in INTEGERS:
            if name == "+":
                return operand
            change = {"-": arithmetic.negated, "~": arithmetic.complement, "@": arithmetic.absolute}.get(name)
            if change is not None:
                return change(form, operand, call.result, self.failing)
        return functions.operator(call, name, form, (operand,), self.meanings, self.failing)

    def of_operator(self, node: Any, name: str, one: Operand, other: Operand, sides: Sequence[Any]) -> Operand:
        """Reads an operator between operands. The sides are given as written, as nodes or texts."""
        call = self.call(node)
        is_order_of_labels = name not in ("=", "<>") and call.arguments[0] in LABELS
        if name in COMPARISONS and comparable(*call.arguments) and not is_order_of_labels:
            return Truth(self.comparison(node, name, one, other))
        left, right = (it if isinstance(it, str) else side_text(it) for it in sides)
        positive = signatures.NEGATIONS.get(name, name)
        form = f"{left} {signatures.WORDS.get(positive, positive)} {right}"
        if call.name == name and arithmetic.is_arithmetic(name, call.arguments):
            return arithmetic.combined(form, name, one, other, call.result, self.failing)
        if call.name != name:
            raise Unread(form, "its text does not match the server's tree")
        span = None if isinstance(sides[1], str) else text_in(sides[1])
        found = applied.operator(call, positive, form, one, other, span, self.context())
        if found is None:
            found = functions.operator(call, positive, form, (one, other), self.meanings, self.failing)
        if call.result != "bool":
            return found
        truth = found.formula if isinstance(found, Truth) else truth_of(found)
        return Truth(truth if positive == name else negation(truth))

    def of_list(self, node: Any, name: str, form: str, is_any: bool) -> Formula:
        """`x op ANY (list)` is OR of the comparisons, and `x op ALL (list)` is AND of them. This also holds for NULLs
        in the list, and for the empty list, whose result does not depend on x."""
        one, listed = self.operand(node.lexpr), self.operand(node.rexpr)
        if isinstance(listed, Ref):
            call = self.call(node)
            if name not in COMPARISONS or not comparable(*call.arguments):
                raise Unread(form, "a list in a column")
            return truth_of(functions.member(faithful(node), (one, listed)))
        if not isinstance(listed, Array):
            raise Unread(form)
        if listed.parts is None:
            return Const(None)
        parts = []
        for part in listed.parts:
            side = text_of(part) if isinstance(part, Value) else None
            if side is None and name not in COMPARISONS:
                raise Unread(form, "a list of values that are not constants")
            found = self.of_operator(node, name, one, part, (node.lexpr, side or ""))
            parts.append(self.as_truth(node, found))
        return either(*parts) if is_any else both(*parts)

    def of_rows(self, node: Any, name: str) -> Formula:
        """Reads the order of two rows of columns, by the operators of their pairs."""
        tree = self.trees[id(node)]
        numbers = tree.fields.get("opnos")
        calls = [self.meanings.operators.get(int(str(it))) for it in numbers[1:]] if isinstance(numbers, list) else []
        pairs = list(zip(node.lexpr.args, node.rexpr.args))
        known = [it for it in calls if it is not None and it.is_own and it.name == name and comparable(*it.arguments)]
        if name not in ("<", "<=", ">", ">=") or len(known) != len(pairs):
            raise Unread(written(node), "the order of these rows")
        read = [(self.operand(one), self.operand(other)) for one, other in pairs]
        return comparing.rows(written(node), name, read, self.null_of)

    def read_BoolExpr(self, node: Any) -> Operand:
        """Reads AND, OR and NOT. The server evaluates the parts from the left, and stops when the rest does not
        matter."""
        if node.boolop.name == "NOT_EXPR":
            return Truth(negation(self.condition(node.args[0])))
        is_and = node.boolop.name == "AND_EXPR"
        before, parts = len(self.failing.path), []
        for part in node.args:
            parts.append(self.condition(part))
            self.failing.path.append(negation(tested("FALSE" if is_and else "TRUE", parts[-1])))
        del self.failing.path[before:]
        return Truth(both(*parts) if is_and else either(*parts))

    def under(self, condition: Formula, read: Callable[[], Operand]) -> Operand:
        """Reads what is evaluated only if a condition holds."""
        self.failing.path.append(condition)
        found = read()
        self.failing.path.pop()
        return found

    def read_NullTest(self, node: Any) -> Operand:
        """Reads IS NULL and IS NOT NULL, which are never NULL."""
        if node.argisrow:
            raise Unread(written(node))
        is_null = comparing.is_null(self.operand(node.arg), self.null_of)
        return Truth(is_null if node.nulltesttype.name == "IS_NULL" else negation(is_null))

    def read_BooleanTest(self, node: Any) -> Operand:
        """Reads IS TRUE and the like, which are never NULL."""
        test = node.booltesttype.name
        found = tested(test.split("_")[-1], self.condition(node.arg))
        return Truth(negation(found) if "NOT" in test else found)

    def read_CoalesceExpr(self, node: Any) -> Operand:
        """Reads coalesce(a, b): a if a is not NULL, and otherwise b."""
        return self.coalesced(list(node.args))

    def coalesced(self, nodes: list[Any]) -> Operand:
        one = self.operand(nodes[0])
        if len(nodes) == 1:
            return one
        is_null = comparing.is_null(one, self.null_of)
        rest = self.under(is_null, lambda: self.coalesced(nodes[1:]))
        return Choice(negation(is_null), one, rest)

    def read_MinMaxExpr(self, node: Any) -> Operand:
        """Reads GREATEST and LEAST, which are NULL only if all of their operands are."""
        parts = tuple(as_value(self.operand(part)) for part in node.args)
        if not all(is_sorted(it) for it in parts):
            raise Unread(written(node), "the greatest or the least of values without an order, or of conditions")
        return Extreme(node.op.name == "IS_GREATEST", parts)

    def read_CaseExpr(self, node: Any) -> Operand:
        """Reads CASE: the value of the first branch whose condition is TRUE, or of ELSE, which defaults to NULL."""
        compared = self.operand(node.arg) if node.arg is not None else None
        return self.branches(node, compared, list(node.args))

    def branches(self, node: Any, compared: Operand | None, left: list[Any]) -> Operand:
        if not left:
            return self.operand(node.defresult) if node.defresult else Value("text", None)
        branch = left[0]
        if compared is None:
            condition = self.condition(branch.expr)
        else:
            condition = self.comparison(branch, "=", compared, self.operand(branch.expr))
        taken = tested("TRUE", condition)
        one = self.under(taken, lambda: self.operand(branch.result))
        other = self.under(negation(taken), lambda: self.branches(node, compared, left[1:]))
        return Choice(condition, one, other)

    def read_FuncCall(self, node: Any) -> Operand:
        """Reads a function of the server, identified by what is called, not by its name."""
        call = self.call(node)
        arguments = [self.operand(part) for part in node.args or ()]
        is_whole = all(it in INTEGERS for it in call.arguments)
        form = faithful(node)
        if call.name != name_of(node.funcname):
            raise Unread(form, "its text does not match the server's tree")
        if call.name == "mod" and is_whole and len(arguments) == 2:
            return arithmetic.combined(form, "%", arguments[0], arguments[1], call.result, self.failing)
        if call.name == "abs" and is_whole and len(arguments) == 1:
            return arithmetic.absolute(form, arguments[0], call.result, self.failing)
        is_counted = call.signature in ("num_nulls(any)", "num_nonnulls(any)") and not node.func_variadic
        counted = applied.nulls(arguments, call.name == "num_nulls", self.null_of) if is_counted else None
        return counted if counted is not None else self.of_function(call, form, arguments)

    def context(self) -> applied.Context:
        return applied.Context(self.meanings, self.failing, self.null_of, self.nulls)

    def of_function(self, call: Call, form: str, arguments: Sequence[Operand]) -> Operand:
        """Reads a function, using what is known about it."""
        found = applied.function(call, form, arguments, self.context())
        if found is None:
            found = functions.call(call, form, arguments, self.meanings, self.failing)
        return Truth(truth_of(found)) if call.result == "bool" and not isinstance(found, Truth) else found

    def read_CollateClause(self, node: Any) -> Operand:
        operand, name = self.operand(node.arg), name_of(node.collname)
        if not isinstance(operand, (Ref, Derived)) or name not in COLLATIONS:
            raise Unread(written(node))
        return collated(operand, self.order_of(name) or name)
