"""Tests texts of several collations in the server's expression trees. Each tree is what PostgreSQL 15 has for the
expression given with it."""

import pathlib
import sys
import unittest

sys.path.insert(0, str(pathlib.Path(__file__).resolve().parent.parent.parent))

from pgshard_tools.judging.node_trees import has_conflict, tree_of

A = "{VAR :varno 1 :varattno 1 :vartype 25 :vartypmod -1 :varcollid 950 :location 1}"
B = "{VAR :varno 1 :varattno 2 :vartype 25 :vartypmod -1 :varcollid 951 :location 2}"
WORD = "{CONST :consttype 25 :constcollid 100 :constisnull false :location 3 :constvalue 5 [ 20 0 0 0 120 ]}"
NUMBER = "{CONST :consttype 23 :constcollid 0 :constisnull false :location 3 :constvalue 4 [ 1 0 0 0 0 0 0 0 ]}"


def equal(one: str, other: str, collation: int) -> str:
    return f"{{OPEXPR :opno 98 :opcollid 0 :inputcollid {collation} :args ({one} {other}) :location 4}}"


def joined(one: str, other: str, collation: int) -> str:
    return f"{{OPEXPR :opno 654 :opcollid {collation} :inputcollid {collation} :args ({one} {other}) :location 5}}"


class Conflicts(unittest.TestCase):
    def check(self, text: str, is_one: bool) -> None:
        self.assertEqual(has_conflict(tree_of(text)), is_one)

    def test_two_columns(self) -> None:
        self.check(equal(A, B, 0), True)
        self.check(equal(A, A, 950), False)

    def test_a_function_of_both(self) -> None:
        lower = f"{{FUNCEXPR :funcid 870 :funccollid 0 :inputcollid 0 :args ({joined(A, B, 0)}) :location 6}}"
        self.check(equal(lower, WORD, 0), True)

    def test_a_number_of_a_text(self) -> None:
        length = f"{{FUNCEXPR :funcid 1317 :funccollid 0 :inputcollid 950 :args ({A}) :location 6}}"
        self.check(equal(length, NUMBER, 0), False)

    def test_rows(self) -> None:
        rows = "{ROWCOMPAREEXPR :rctype 1 :opnos (o 664 664) :inputcollids (o {it}) :largs (LEFT) :rargs (RIGHT)}"
        two = rows.replace("LEFT", f"{A} {A}").replace("RIGHT", f"{B} {B}").replace("{it}", "0 0")
        self.check(two, True)
        self.check(rows.replace("LEFT", f"{A} {B}").replace("RIGHT", f"{A} {B}").replace("{it}", "950 951"), False)

    def test_below_another_node(self) -> None:
        self.check(f"{{BOOLEXPR :boolop not :args ({equal(A, B, 0)}) :location 7}}", True)


if __name__ == "__main__":
    unittest.main()
