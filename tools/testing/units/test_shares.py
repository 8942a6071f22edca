"""Tests which publications carry a table's rows, and who gets them."""

import unittest

from pgshard_tools.judging.database import OPERATIONS, Subscriber
from pgshard_tools.judging.shares import shares_of_all
from units.catalogs import database, entry, publication, table

ROOT = table(1, "log", kind="p", identity_numbers=None)
LOW = table(2, "log_low", ancestors=[1], partition="(id < 0)")
HIGH = table(3, "log_high", ancestors=[1], partition="(id >= 0)")
UNLOGGED = table(4, "log_gone", ancestors=[1], is_publishable=False, is_unlogged=True)
CHANGES = ["update", "delete", "truncate"]


def found(tables, publications, **taken):
    subscribers = [Subscriber(name, names) for name, names in taken.items()]
    return {it.table["name"]: it for it in shares_of_all(database(tables, publications), subscribers)}


class Trees(unittest.TestCase):
    def test_by_the_root(self) -> None:
        shares = found([ROOT, LOW, HIGH], [publication("p", entry(1, "(id > 5)"), via_root=True)], s=["p"])
        self.assertEqual(list(shares), ["log"])
        self.assertEqual(shares["log"].filters, {"p": "(id > 5)"})
        self.assertEqual([it["name"] for it in shares["log"].leaves], ["log_low", "log_high"])

    def test_by_partitions(self) -> None:
        shares = found([ROOT, LOW, HIGH], [publication("p", entry(1))], s=["p"])
        self.assertEqual(list(shares), ["log_low", "log_high"])

    def test_the_topmost_table_counts(self) -> None:
        shares = found([ROOT, LOW, HIGH], [
            publication("root", entry(1, "(id > 5)"), via_root=True), publication("low", entry(2, "(id < 3)"))],
            one=["root", "low"], two=["low"])
        self.assertEqual(shares["log_low"].takers, {"one": ["root"], "two": ["low"]})
        self.assertEqual(shares["log_high"].takers, {"one": ["root"], "two": []})

    def test_a_partition_that_is_unlogged(self) -> None:
        shares = found([ROOT, LOW, UNLOGGED], [publication("p", entry(1), via_root=True)], s=["p"])
        self.assertEqual([it.table["name"] for it in shares["log"].silent], ["log_gone"])
        self.assertEqual(shares["log"].silent[0].takers, {"s": []})

    def test_an_unlogged_partition_under_a_table_that_is_not_published(self) -> None:
        shares = found([LOW, UNLOGGED], [publication("p", entry(2))], s=["p"])
        self.assertEqual(list(shares), ["log_low"])

    def test_an_unlogged_partition_beside_others_that_are_published_by_themselves(self) -> None:
        for others in {}, {"all": True}, {"schemas": ["public"]}:
            with self.subTest(others):
                shares = found([ROOT, LOW, UNLOGGED], [publication("p", entry(1), **others)], s=["p"])
                self.assertEqual(list(shares), ["log_low", "log_gone"])
                self.assertEqual((shares["log_low"].silent, shares["log_gone"].takers), ([], {"s": []}))

    def test_an_unlogged_partition_of_a_published_part_of_a_tree(self) -> None:
        part = table(5, "log_part", kind="p", ancestors=[1], identity_numbers=None)
        below = UNLOGGED | {"ancestors": [5, 1]}
        shares = found([part, below], [publication("p", entry(5), via_root=True)], s=["p"])
        self.assertEqual((list(shares), shares["log_gone"].takers), (["log_gone"], {"s": []}))
        # The table's own publication publishes nothing of it.
        shares = found([part, LOW, below], [publication("p", entry(2), entry(4))], s=["p"])
        self.assertEqual(list(shares), ["log_low"])

    def test_only_unlogged_partitions(self) -> None:
        shares = found([ROOT, UNLOGGED], [publication("p", entry(1), via_root=True)], s=["p"])
        self.assertEqual(list(shares), ["log_gone"])


class Filters(unittest.TestCase):
    def test_all_tables_and_schemas_have_no_filter(self) -> None:
        for others in {"all": True}, {"schemas": ["public"]}:
            with self.subTest(others):
                shares = found([table(1, "t")], [publication("p", entry(1, "(id > 5)"), **others)], s=["p"])
                self.assertEqual(shares["t"].filters, {"p": None})

    def test_a_table_that_nobody_publishes(self) -> None:
        self.assertEqual(found([table(1, "t")], [publication("p")], s=["p"]), {})


class Operations(unittest.TestCase):
    def operations(self, first, second):
        shares = found([table(1, "t")], [
            publication("added", entry(1, first), operations=["insert"]),
            publication("changed", entry(1, second), operations=CHANGES)], s=["added", "changed"])["t"]
        return shares.takers, shares.operations

    def test_split_with_the_same_filter(self) -> None:
        self.assertEqual(
            self.operations("(id > 5)", "(id > 5)"), ({"s": ["added"]}, {"added": OPERATIONS, "changed": OPERATIONS}))

    def test_split_with_two_filters(self) -> None:
        self.assertEqual(
            self.operations("(id > 5)", None), ({"s": ["added"]}, {"added": ["insert"], "changed": CHANGES}))

    def test_one_subscriber_lacks_the_other_publication(self) -> None:
        shares = found([table(1, "t")], [
            publication("added", entry(1), operations=["insert"]),
            publication("changed", entry(1), operations=CHANGES)], s=["added", "changed"], other=["added"])["t"]
        self.assertEqual(shares.operations["added"], ["insert"])
        self.assertEqual(shares.operations["changed"], OPERATIONS)

    def test_one_without_a_filter_is_enough(self) -> None:
        shares = found([table(1, "t")], [
            publication("whole", entry(1), operations=["insert"]), publication("part", entry(1, "(id > 5)")),
            publication("changed", entry(1), operations=CHANGES)], s=["whole", "part", "changed"])["t"]
        self.assertEqual(shares.operations["part"], OPERATIONS)

    def test_insert_of_a_partition_alone(self) -> None:
        shares = found([ROOT, LOW], [
            publication("root", entry(1), via_root=True, operations=CHANGES), publication("low", entry(2))],
            s=["root", "low"])["log_low"]
        self.assertEqual(len(shares.undecided), 1)


if __name__ == "__main__":
    unittest.main()
