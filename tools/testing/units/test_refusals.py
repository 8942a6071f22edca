"""Tests why the server refuses updates and deletes, and ends streams, according to CheckCmdReplicaIdentity and pgoutput
of version 15."""

import unittest

from pgshard_tools.judging.database import Subscriber
from pgshard_tools.judging.refusals import refusals_of
from pgshard_tools.judging.shares import shares_of_all
from units.catalogs import column, database, entry, publication, table


def refused(tables, publications, *taken, version=150018, missing=()):
    """Returns the first words of each relevant reason, for the first table."""
    db = database(tables, publications, version=version)
    subscriber = Subscriber("s", list(taken), missing=list(missing))
    return refusals_of(db, shares_of_all(db, [subscriber])[0])


class Identities(unittest.TestCase):
    def test_covered(self) -> None:
        self.assertEqual(refused([table(1, "t")], [publication("p", entry(1, "(id > 5)"))], "p"), [])
        self.assertEqual(refused([table(1, "t", identity="f")], [publication("p", entry(1, "(region > 5)"))], "p"), [])

    def test_of_a_publication_that_nobody_takes(self) -> None:
        found = refused([table(1, "t")], [publication("p", entry(1)), publication("q", entry(1, "(region > 5)"))], "p")
        self.assertEqual(len(found), 1)
        self.assertEqual(found, ["the server refuses updates and deletes, since the filter of publication q names column "
                                 "region, which is not in the replica identity"])

    def test_of_a_publication_of_inserts(self) -> None:
        self.assertEqual(refused([table(1, "t")], [
            publication("p", entry(1)), publication("q", entry(1, "(region > 5)"), operations=["insert"])], "p"), [])

    def test_filters_of_several(self) -> None:
        found = refused([table(1, "t")], [
            publication(name, entry(1, "(region > 5 AND other IS NULL)")) for name in ("p", "q", "r")], "p")
        self.assertEqual(found, ["the server refuses updates and deletes, since the filters of publications p, q and r "
                                 "name columns region and other, which are not in the replica identity"])

    def test_no_identity(self) -> None:
        for identity, words in {
            "n": "its replica identity is NOTHING", "d": "it has no replica identity, such as a primary key that is not deferrable",
            "i": "the index of its replica identity is missing or not valid",
        }.items():
            with self.subTest(identity):
                found = refused(
                    [table(1, "t", identity=identity, identity_numbers=None)], [publication("p", entry(1))], "p")
                self.assertEqual(found, [f"the server refuses updates and deletes, since {words}"])

    def test_only_deletes(self) -> None:
        found = refused([table(1, "t", identity="n", identity_numbers=None)], [
            publication("p", entry(1), operations=["insert", "truncate"]),
            publication("q", entry(1), operations=["delete"])], "p")
        self.assertEqual(len(found), 2)
        self.assertEqual(found[1], "the server refuses deletes, since its replica identity is NOTHING")

    def test_lists_and_full(self) -> None:
        found = refused([table(1, "t", identity="f")], [publication("p", entry(1, None, [1, 2]))], "p")
        self.assertEqual(len(found), 1)
        self.assertIn("since publication p has a column list, and the replica identity is FULL", found[0])

    def test_a_list_without_the_key(self) -> None:
        found = refused([table(1, "t")], [publication("p", entry(1, None, [2]))], "p")
        self.assertEqual(len(found), 1)
        self.assertIn("since the column list of publication p lacks column id, which is in the replica", found[0])

    def test_a_filter_beside_its_schema(self) -> None:
        found = refused([table(1, "t")], [publication("p", entry(1, "(region > 5)"), schemas=["public"])], "p")
        self.assertEqual(len(found), 1)

    def test_a_filter_of_all_tables_is_none(self) -> None:
        self.assertEqual(refused([table(1, "t")], [publication("p", all=True)], "p"), [])

    def test_an_unlogged_partition_is_not_asked(self) -> None:
        root = table(1, "log", kind="p")
        gone = table(2, "gone", ancestors=[1], identity="n", identity_numbers=None, is_publishable=False)
        self.assertEqual(refused([root, gone], [publication("p", entry(1), via_root=True)], "p"), [])

    def test_generated_columns_of_later_versions(self) -> None:
        columns = [column(1, "id"), column(2, "twice", generated=True)]
        for published, numbers, is_virtual, is_refused in (
                (None, None, False, False), ("n", None, False, True), ("s", None, False, False),
                ("s", None, True, True), ("n", [1, 2], False, False), ("n", [1], False, True)):
            with self.subTest((published, numbers, is_virtual)):
                identity = {"identity": "i", "identity_numbers": [1, 2]} if numbers else {"identity": "f"}
                columns[1]["is_virtual"] = is_virtual
                found = refused([table(1, "t", columns=columns, **identity)], [
                    publication("p", entry(1, None, numbers), generated=published)], "p", version=180001)
                self.assertEqual(any("column twice" in it and "is generated" in it for it in found), is_refused)

    def test_each_partition_has_its_identity(self) -> None:
        root = table(1, "log", kind="p")
        low, high = table(2, "low", ancestors=[1]), table(3, "high", ancestors=[1], identity_numbers=[2])
        found = refused([root, low, high], [publication("p", entry(1, "(id > 5)"), via_root=True)], "p")
        self.assertEqual(len(found), 1)
        self.assertIn("of partition public.high", found[0])


class Streams(unittest.TestCase):
    def lists(self, one, two, **others):
        return refused([table(1, "t", **others)], [
            publication("p", entry(1, None, one)), publication("q", entry(1, None, two))], "p", "q")

    def test_lists_that_are_one(self) -> None:
        for one, two in ([1], [1]), ([1, 2], [2, 1]), (None, None), ([1, 2], None):
            with self.subTest((one, two)):
                self.assertEqual(self.lists(one, two), [])

    def test_lists_that_differ(self) -> None:
        for one, two in ([1], [1, 2]), ([1], None):
            with self.subTest((one, two)):
                self.assertIn("whose column lists differ", self.lists(one, two)[0])

    def test_a_whole_list_where_a_column_was_dropped(self) -> None:
        self.assertEqual(self.lists([1, 2], [2, 1], has_dropped=True), [])
        self.assertIn("whose column lists differ", self.lists([1, 2], None, has_dropped=True)[0])

    def test_a_whole_list_where_a_column_is_generated(self) -> None:
        columns = [column(1, "id"), column(2, "twice", generated=True)]
        self.assertIn("whose column lists differ", self.lists([1], None, columns=columns)[0])

    def test_publications_of_later_versions_of_which_one_has_generated_columns(self) -> None:
        columns = [column(1, "id"), column(2, "twice", generated=True)]
        for one, other, numbers, is_refused in (
                ("n", "n", None, False), ("s", "s", None, False), ("s", "n", None, True), ("s", "n", [1, 2], False)):
            with self.subTest((one, other, numbers)):
                found = refused([table(1, "t", columns=columns, identity_numbers=[1])], [
                    publication("p", entry(1), generated=one),
                    publication("q", entry(1, None, numbers), generated=other)], "p", "q", version=180001)
                self.assertEqual(any("column lists differ" in it for it in found), is_refused)

    def test_a_publication_that_is_not_there(self) -> None:
        found = refused([table(1, "t")], [publication("p", entry(1))], "p", missing=["gone"])
        self.assertIn("takes publication gone, which does not exist", found[0])


class Operations(unittest.TestCase):
    def test_operations_that_are_missing(self) -> None:
        for operations, missing in {
            ("insert",): "update, delete and truncate", ("update", "delete", "truncate"): "insert",
            ("insert", "update", "truncate"): "delete", (): "insert, update, delete and truncate",
        }.items():
            with self.subTest(missing):
                found = refused([table(1, "t")], [publication("p", entry(1), operations=list(operations))], "p")
                self.assertEqual(found, [f"publication p does not publish {missing}"])

    def test_operations_that_several_subscribers_lack(self) -> None:
        db = database([table(1, "t")], [
            publication("p", entry(1, "(id > 5)"), operations=["insert"]), publication("q", entry(1, "(id = 5)")),
            publication("r", entry(1, "(id < 5)"), operations=["insert"]),
            publication("s", entry(1, "(id < 5)"), operations=["update", "delete"])])
        subscribers = [Subscriber("a", ["p"]), Subscriber("b", ["q"]), Subscriber("c", ["r", "s"])]
        self.assertEqual(refusals_of(db, shares_of_all(db, subscribers)[0]), [
            "publication p does not publish update, delete and truncate",
            "publications r and s do not publish truncate"])
        subscribers[2] = Subscriber("c", ["r"])
        self.assertEqual(refusals_of(db, shares_of_all(db, subscribers)[0]), [
            "publications p and r do not publish update, delete and truncate"])

    def test_operations_by_two_filters(self) -> None:
        found = refused([table(1, "t")], [
            publication("p", entry(1, "(id > 5)"), operations=["insert"]),
            publication("q", entry(1, "(id <= 5)"), operations=["update", "delete"])], "p", "q")
        self.assertEqual(found, [
            "publications p and q do not publish truncate",
            "subscriber s takes publications p and q, whose filters for update and delete differ from those for insert"])

    def test_operations_by_one_filter(self) -> None:
        self.assertEqual(refused([table(1, "t")], [
            publication("p", entry(1, "(id > 5)"), operations=["insert"]),
            publication("q", entry(1, "(id > 5)"), operations=["update", "delete", "truncate"])], "p", "q"), [])


if __name__ == "__main__":
    unittest.main()
