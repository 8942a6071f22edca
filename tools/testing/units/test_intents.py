"""Tests how a file of --intent is read, and what it changes."""

import pathlib
import sys
import tempfile
import unittest
from unittest import mock

from pgshard_tools.judging import intents, verdicts
from pgshard_tools.judging.database import Subscriber
from pgshard_tools.judging.faults import BAD_COMMAND, Fault
from pgshard_tools.judging.refusals import refusals_of
from pgshard_tools.judging.shares import shares_of_all
from pgshard_tools.judging.verdicts import Verdict
from units.catalogs import database, entry, publication, table

TEXT = """
copied = ["settings"]
partial = ["shop.drafts"]
append-only = ["events"]
skip = ["public.scratch"]
[omitted]
orders = ["truncate"]
"shop.lines" = ["update", "delete"]
[subscribers]
london = ["europe"]
"""


def intent_of(text: str) -> intents.Intent:
    with tempfile.TemporaryDirectory() as folder:
        path = pathlib.Path(folder) / "intent.toml"
        path.write_text(text)
        return intents.read(str(path))


class Reading(unittest.TestCase):
    def test_all_of_it(self) -> None:
        found = intent_of(TEXT)
        self.assertEqual(found.listed("copied"), ["public.settings"])
        self.assertEqual(found.listed("partial"), ["shop.drafts"])
        self.assertEqual(found.operations(), {
            "public.orders": {"truncate"}, "shop.lines": {"update", "delete"},
            "public.events": {"update", "delete", "truncate"}})
        self.assertEqual(found.subscribers, {"london": ["europe"]})

    def test_nothing(self) -> None:
        self.assertEqual((intent_of("").named(), intents.read(None).named()), ([], []))

    def test_faults(self) -> None:
        for text, named in {
            "copy = []": "copy: an intention is one of copied", "copied = 'a'": "copied is a list of texts",
            "copied = [1]": "copied is a list of texts", "omitted = ['a']": "omitted is a table",
            "[omitted]\na = 'update'": "omitted.a is a list",
            "[omitted]\na = ['insert']": "omitted.a: insert is not one of",
            "[subscribers]\na = 1": "subscribers.a is a list", "copied = [": "cannot read",
        }.items():
            with self.subTest(text), self.assertRaises(Fault) as raised:
                intent_of(text)
            self.assertEqual(raised.exception.status, BAD_COMMAND)
            self.assertIn(named, raised.exception.words)

    def test_a_python_that_reads_no_toml(self) -> None:
        with mock.patch.dict(sys.modules, tomllib=None), self.assertRaises(Fault) as raised:
            intent_of(TEXT)
        self.assertIn("Python 3.11", raised.exception.words)

    def test_a_file_that_is_not_there(self) -> None:
        with self.assertRaises(Fault):
            intents.read("/nowhere/intent.toml")


class Omitting(unittest.TestCase):
    def shares(self, text, *publications, **others):
        db = database([table(1, "t", **others)], list(publications))
        found = intents.taken(db, intent_of(text), shares_of_all(db, [Subscriber("s", ["p"])]))
        return db, found

    def refused(self, text, *publications, **others):
        db, found = self.shares(text, *publications, **others)
        return refusals_of(db, found[0])

    def test_operations(self) -> None:
        inserting = publication("p", entry(1), operations=["insert", "update", "delete"])
        self.assertEqual(len(self.refused("", inserting)), 1)
        self.assertEqual(self.refused("[omitted]\nt = ['truncate']", inserting), [])
        self.assertEqual(self.refused("append-only = ['t']", inserting), [])
        self.assertEqual(len(self.refused("[omitted]\nt = ['update']", inserting)), 1)
        self.assertEqual(len(self.refused("append-only = ['other']", inserting)), 1)
        self.assertEqual(self.refused("[omitted]\nt = ['update']", publication("p", entry(1), operations=["insert"])), [
            "publication p does not publish delete and truncate"])

    def test_an_identity_that_is_not_needed(self) -> None:
        given = {"identity": "n", "identity_numbers": None}
        self.assertEqual(self.refused("append-only = ['t']", publication("p", entry(1)), **given), [])
        self.assertEqual(len(self.refused("[omitted]\nt = ['update']", publication("p", entry(1)), **given)), 1)

    def test_an_insert_is_never_left_out(self) -> None:
        changing = publication("p", entry(1), operations=["update", "delete", "truncate"])
        self.assertEqual(len(self.refused("append-only = ['t']", changing)), 1)

    def test_skipping(self) -> None:
        self.assertEqual(self.shares("skip = ['t']", publication("p", entry(1)))[1], [])


class Citing(unittest.TestCase):
    def test_what_an_answer_rests_on(self) -> None:
        verdict = Verdict("public.t", verdicts.SOUND, remarks=[verdicts.COPIED])
        self.assertIn("copied to all subscribers, as copied in ", self.raw("copied = ['t']", verdict))
        verdict = Verdict("public.t", verdicts.SOUND, left_out=["update"])
        self.assertIn("update left out, as append-only in ", self.raw("append-only = ['t']", verdict))

    def raw(self, text, verdict):
        intents.cite(intent_of(text), [verdict], [Subscriber("a", []), Subscriber("b", [])], {})
        return " ".join(verdict.remarks)

    def test_what_would_allow_a_row(self) -> None:
        for takers, words in ([], 'partial = ["public.t"] in'), (["a", "b"], 'copied = ["public.t"] in'):
            verdict = Verdict("public.t", verdicts.NOT_SOUND, row={"id": "1"}, takers=takers)
            self.assertIn(words, self.raw("skip = ['other']", verdict))

    def test_without_a_file(self) -> None:
        verdict = Verdict("public.t", verdicts.NOT_SOUND, row={"id": "1"})
        intents.cite(intents.read(None), [verdict], [], {})
        self.assertEqual(verdict.remarks, [])


if __name__ == "__main__":
    unittest.main()
