"""Tests what judge says that mends or allows what is refused of a table."""

import unittest

from pgshard_tools.judging.database import Subscriber
from pgshard_tools.judging.mending import advice
from pgshard_tools.judging.shares import leave_out, shares_of_all
from units.catalogs import database, entry, publication, table

ALL = "SET (publish = 'insert, update, delete, truncate')"
APPENDED = 'if rows are only ever inserted, append-only = ["public.t"] in a file of --intent allows it'
KEYLESS = {"identity": "d", "identity_numbers": None}


def on_purpose(*operations: str) -> str:
    listed = ", ".join(f'"{it}"' for it in operations)
    return f'if that is on purpose, omitted."public.t" = [{listed}] in a file of --intent allows it'


class Advice(unittest.TestCase):
    def of(self, tables, publications, *taken, omitted=()):
        db = database(tables, publications)
        found = shares_of_all(db, [Subscriber(name, names) for name, *names in taken or (("s", "p"),)])
        leave_out(db, found, {"public.t": frozenset(omitted)})
        return advice(db, found[0])

    def test_operations(self) -> None:
        for operations, expected in {
            ("insert",): [f"ALTER PUBLICATION p {ALL} mends that", APPENDED],
            ("insert", "truncate"): [f"ALTER PUBLICATION p {ALL} mends that", APPENDED],
            ("insert", "update"): [f"ALTER PUBLICATION p {ALL} mends that", on_purpose("delete", "truncate")],
            ("insert", "update", "delete"): [f"ALTER PUBLICATION p {ALL} mends that", on_purpose("truncate")],
            ("update", "delete", "truncate"): [],
        }.items():
            with self.subTest(operations):
                self.assertEqual(self.of([table(1, "t")], [
                    publication("p", entry(1), operations=list(operations))]), expected)

    def test_operations_of_which_one_is_omitted(self) -> None:
        found = self.of([table(1, "t")], [publication("p", entry(1), operations=["insert"])], omitted=["truncate"])
        self.assertEqual(found, [
            "ALTER PUBLICATION p SET (publish = 'insert, update, delete') mends that", APPENDED])
        found = self.of([table(1, "t")], [publication("p", entry(1), operations=["insert", "update"])],
                        omitted=["truncate"])
        self.assertEqual(found[1], on_purpose("delete", "truncate"))

    def test_several_publications(self) -> None:
        halves = [publication(name, entry(1, filter), operations=["insert"], quoted=f'"{name}"')
                  for name, filter in (("p", "(id < 5)"), ("q", "(id >= 5)"))]
        self.assertEqual(self.of([table(1, "t")], halves, ("a", "p"), ("b", "q"))[0], f"ALTER PUBLICATION .. {ALL} mends that")
        self.assertEqual(self.of([table(1, "t")], halves[:1])[0], f'ALTER PUBLICATION "p" {ALL} mends that')
        # The second one publishes other operations than the first one would.
        halves[1] = publication("q", entry(1, "(id < 5)"), operations=["update", "delete"])
        self.assertEqual(self.of([table(1, "t")], halves, ("a", "p", "q"))[0], f'ALTER PUBLICATION "p" {ALL} mends that')
        halves[1] = publication("q", entry(1, "(id > 5)"), operations=["update", "delete"])
        self.assertEqual(self.of([table(1, "t")], halves, ("a", "p", "q")), [APPENDED])

    def test_identities(self) -> None:
        full = "ALTER TABLE public.t REPLICA IDENTITY FULL mends that"
        self.assertEqual(self.of([table(1, "t", **KEYLESS)], [publication("p", entry(1))]), [full, APPENDED])
        self.assertEqual(self.of([table(1, "t")], [publication("p", entry(1, "(region < 5)"))]), [full, APPENDED])
        # A column list is refused under FULL, too.
        self.assertEqual(self.of([table(1, "t")], [publication("p", entry(1, None, [2]))]), [APPENDED])

    def test_operations_and_an_identity(self) -> None:
        found = self.of([table(1, "t", **KEYLESS)], [publication("p", entry(1), operations=["insert"])])
        self.assertEqual(found, [
            f"ALTER PUBLICATION p {ALL}, with ALTER TABLE public.t REPLICA IDENTITY FULL, mends that", APPENDED])

    def test_that_no_other_table_is_refused_then(self) -> None:
        other = table(2, "other", **KEYLESS)
        found = self.of([table(1, "t"), other], [publication("p", entry(1), entry(2), operations=["insert"])])
        self.assertEqual(found, [APPENDED])

    def test_partitions(self) -> None:
        root = table(1, "t", kind="p")
        parts = [table(number, f"part_{number}", ancestors=[1], **KEYLESS) for number in (2, 3)]
        carried = [publication("p", entry(1), via_root=True)]
        self.assertEqual(self.of([root, *parts], carried)[0], "ALTER TABLE .. REPLICA IDENTITY FULL mends that")
        parts[1] |= {"identity_numbers": [1]}
        self.assertEqual(self.of([root, *parts], carried)[0], "ALTER TABLE public.part_2 REPLICA IDENTITY FULL mends that")

    def test_what_nothing_mends(self) -> None:
        self.assertEqual(self.of([table(1, "t")], [
            publication("p", entry(1, None, [1])), publication("q", entry(1))], ("a", "p", "q")), [])


if __name__ == "__main__":
    unittest.main()
