"""Tests the verdict of a table, given the answers of pgshard and the server, both of which are simulated here."""

import subprocess
import time
import unittest
from unittest import mock

from pgshard_tools.judging import evaluating, program, verdicts
from pgshard_tools.judging.command import status_of
from pgshard_tools.judging.database import Subscriber
from pgshard_tools.judging.evaluating import Outcome
from pgshard_tools.judging.faults import Undecided
from pgshard_tools.judging.report import lines_of
from pgshard_tools.judging.rows import Confirmed
from pgshard_tools.judging.shares import shares_of_all
from pgshard_tools.judging.timing import TimeIsUp, counted, time_limit
from pgshard_tools.judging.verdicts import Verdict
from units.catalogs import Meanings, database, entry, publication, table

TABLE = table(1, "t")
TWO = [publication("low", entry(1, "(id < 5)")), publication("high", entry(1, "(id > 5)"))]


class Session:
    """A server that sorts texts by their bytes, and fails for each query."""

    def ask(self, query):
        return ""

    def meanings(self, db):
        return Meanings()

    def sorted_texts(self, collation, texts):
        return sorted(texts)


def verdict_of(made, last="accepted\n", confirmed=None, tables=(TABLE,), publications=TWO, purpose=None):
    db = database(list(tables), list(publications))
    shares = shares_of_all(db, [Subscriber(it["name"], [it["name"]]) for it in publications])[0]
    answers = mock.patch.object(program, "run", side_effect=lambda word, text: made if word == "make" else last)
    rows = mock.patch.object(evaluating, "confirmed", return_value=confirmed or Confirmed(False, []))
    with answers, rows:
        return verdicts.judged(db, shares, purpose, Session())


class Foreign(unittest.TestCase):
    """A partition that has no row within its bounds, but other rows, which go to nobody."""

    def verdict_of(self, kind):
        root = table(1, "log", kind="p", identity_numbers=None)
        leaf = table(2, "log_gone", ancestors=[1], is_publishable=False, kind=kind, partition="(id < 0)")
        shares = shares_of_all(database([root, leaf], [publication("p", entry(1), via_root=True)]), [])[0]
        played = {True: Verdict("public.log_gone", verdicts.SOUND), False: Verdict("public.log_gone", verdicts.NOT_SOUND)}
        with mock.patch.object(verdicts, "judged_alone", side_effect=lambda db, it, purpose, session:
                               played[it.table["partition"] is not None and it.leaves == [it.table]]):
            return verdicts.judged(database([], []), shares, None, Session())

    def test_the_server_enforces_no_bounds_of_a_foreign_table(self) -> None:
        found = self.verdict_of("f")
        self.assertEqual(found.answer, verdicts.NOT_SOUND)
        self.assertIn("INSERT into public.log_gone itself takes it", found.remarks[0])

    def test_the_server_enforces_those_of_another(self) -> None:
        self.assertEqual(self.verdict_of("r").answer, verdicts.SOUND)


COUNTER = "counter public.t (0, 5) owners none\n"


class Answers(unittest.TestCase):
    def test_sound(self) -> None:
        self.assertEqual(verdict_of("o 0\n").answer, verdicts.SOUND)

    def test_a_certificate_that_the_check_refuses(self) -> None:
        self.assertEqual(verdict_of("o 0\n", "refused CertCount\n").answer, verdicts.NOT_DECIDED)

    def test_a_row_that_the_server_confirms(self) -> None:
        found = verdict_of(COUNTER, confirmed=Confirmed(True, []))
        self.assertEqual((found.answer, found.takers), (verdicts.NOT_SOUND, []))
        self.assertEqual(lines_of(found)[0], "public.t: NOT SOUND: the row (5, NULL) goes to no subscriber")

    def test_a_row_that_the_server_does_not_take(self) -> None:
        self.assertEqual(verdict_of(COUNTER, confirmed=Confirmed(False, [])).answer, verdicts.NOT_DECIDED)

    def test_a_row_that_the_server_sends_to_one(self) -> None:
        self.assertEqual(verdict_of(COUNTER, confirmed=Confirmed(True, ["low"])).answer, verdicts.NOT_DECIDED)

    def test_a_row_for_two_and_a_row_for_none_in_part(self) -> None:
        for takers, answer in ([], verdicts.NOT_DECIDED), (["low", "high"], verdicts.NOT_SOUND):
            with self.subTest(takers):
                found = verdict_of(COUNTER, confirmed=Confirmed(True, takers), purpose="partial")
                self.assertEqual(found.answer, answer)

    def test_neither(self) -> None:
        for word in "unknown", "too large":
            with self.subTest(word):
                self.assertEqual(verdict_of(f"{word} public.t\n").answer, verdicts.NOT_DECIDED)

    def test_what_the_server_refuses(self) -> None:
        keyless = table(1, "t", identity="n", identity_numbers=None)
        found = verdict_of("o 0\n", tables=[keyless])
        self.assertEqual((found.answer, found.because), (verdicts.REFUSED, [
            "the server refuses updates and deletes, since its replica identity is NOTHING",
            "ALTER TABLE public.t REPLICA IDENTITY FULL mends that",
            'if rows are only ever inserted, append-only = ["public.t"] in a file of --intent allows it']))
        found = verdict_of(COUNTER, confirmed=Confirmed(True, []), tables=[keyless])
        self.assertEqual((found.answer, len(found.because)), (verdicts.NOT_SOUND, 1))
        self.assertIn("    REFUSED, too: the server refuses updates and deletes, since", "\n".join(lines_of(found)))

    def test_a_filter_that_is_not_read(self) -> None:
        found = verdict_of("o 0\n", publications=[publication("p", entry(1, "(strange(id))"))])
        self.assertEqual(found.answer, verdicts.NOT_READ)

    def test_texts_that_the_server_does_not_sort(self) -> None:
        with mock.patch("pgshard_tools.judging.trials.trial_of", side_effect=Undecided("no order")):
            found = verdict_of("o 0\n")
        self.assertEqual((found.answer, found.because), (verdicts.NOT_DECIDED, ["no order"]))

    def test_a_table_that_is_locked(self) -> None:
        found = verdict_of("o 0\n", tables=[table(1, "t", is_locked=True)])
        self.assertEqual(found.answer, verdicts.NOT_DECIDED)

    def test_row_level_security(self) -> None:
        found = verdict_of("o 0\n", tables=[table(1, "t", has_row_security=True)])
        self.assertEqual((found.answer, len(found.remarks)), (verdicts.SOUND, 1))


class Partitions(unittest.TestCase):
    ROOT = table(1, "t", kind="p")
    LOW = table(2, "low", ancestors=[1])
    GONE = table(3, "gone", ancestors=[1], is_publishable=False)
    BY_ROOT = [publication("p", entry(1), via_root=True)]

    def test_a_row_of_an_unlogged_partition_is_one_of_the_table(self) -> None:
        found = verdict_of("counter public.gone (0) owners none\n", confirmed=Confirmed(True, []),
                           tables=[self.ROOT, self.LOW, self.GONE], publications=self.BY_ROOT)
        self.assertEqual((found.table, found.answer), ("public.t", verdicts.NOT_SOUND))

    def test_an_unlogged_partition_that_is_not_decided(self) -> None:
        found = verdict_of("unknown public.gone\n", tables=[self.ROOT, self.LOW, self.GONE], publications=self.BY_ROOT)
        self.assertEqual((found.table, found.answer), ("public.t", verdicts.NOT_DECIDED))

    def test_an_unlogged_partition_below_a_root_that_nobody_publishes(self) -> None:
        middle, gone = table(2, "middle", kind="p", ancestors=[1]), table(3, "gone", ancestors=[2, 1], is_publishable=False)
        found = verdict_of("counter public.gone (0) owners none\n", confirmed=Confirmed(True, []), tables=[middle, gone],
                           publications=[publication("p", entry(2), via_root=True)])
        self.assertEqual((found.table, found.answer, found.takers), ("public.gone", verdicts.NOT_SOUND, []))

    def test_an_unlogged_partition_without_rows(self) -> None:
        self.assertEqual(verdict_of("o 0\n", tables=[self.ROOT, self.LOW, self.GONE], publications=self.BY_ROOT).answer,
                         verdicts.SOUND)


class Witnesses(unittest.TestCase):
    def search(self, outcome, made="unknown public.t\n"):
        """Returns the verdict of a table about which pgshard knows nothing, and for each of whose rows the server
        answers this."""
        everything = mock.patch.object(evaluating, "outcomes", side_effect=lambda s, q, listed: [outcome] * len(listed))
        values = mock.patch("pgshard_tools.judging.witnesses.taken_values", side_effect=lambda session, column, listed: listed)
        with everything, values:
            return verdict_of(made, confirmed=Confirmed(True, []))

    def test_a_proof_that_the_server_contradicts(self) -> None:
        self.assertEqual(self.search(Outcome(is_accepted=True), "o 0\n").answer, verdicts.NOT_SOUND)

    def test_a_proof_with_a_filter_that_fails(self) -> None:
        found = self.search(Outcome(is_accepted=True, is_failing=True), "o 0\n")
        self.assertEqual((found.answer, len(found.failing)), (verdicts.NOT_DECIDED, 3))

    def test_a_proof_that_the_server_confirms(self) -> None:
        self.assertEqual(self.search(Outcome(is_accepted=True, passed={"low"}), "o 0\n").answer, verdicts.SOUND)

    def test_a_row_for_nobody(self) -> None:
        self.assertEqual(self.search(Outcome(is_accepted=True)).answer, verdicts.NOT_SOUND)

    def test_a_row_for_one(self) -> None:
        self.assertEqual(self.search(Outcome(is_accepted=True, passed={"low"})).answer, verdicts.NOT_DECIDED)

    def test_a_row_that_the_table_does_not_take(self) -> None:
        self.assertEqual(self.search(Outcome()).answer, verdicts.NOT_DECIDED)

    def test_a_row_at_which_a_filter_fails(self) -> None:
        found = self.search(Outcome(is_accepted=True, is_failing=True))
        self.assertEqual((found.answer, len(found.failing)), (verdicts.NOT_DECIDED, 3))


class Statuses(unittest.TestCase):
    def test_all(self) -> None:
        for answers, status in {
            (): 1, (verdicts.SOUND,): 0, (verdicts.SOUND, verdicts.NOT_READ): 3, (verdicts.NOT_SOUND,): 1,
            (verdicts.REFUSED, verdicts.NOT_READ): 1, (verdicts.NOT_DECIDED,): 1,
        }.items():
            with self.subTest(answers):
                self.assertEqual(status_of([Verdict("t", it) for it in answers], False), status)

    def test_strict(self) -> None:
        found = [Verdict("t", verdicts.SOUND, failing=["a row"])]
        self.assertEqual((status_of(found, False), status_of(found, True)), (0, 1))
        self.assertEqual(lines_of(found[0]), ["t: sound", "    but a row"])


class Times(unittest.TestCase):
    def test_a_block_that_takes_too_long(self) -> None:
        with self.assertRaises(TimeIsUp), time_limit(0.05):
            while True:
                pass

    def test_processor_time_counts(self) -> None:
        with time_limit(1):
            time.sleep(1.5)

    def test_the_time_of_a_process_that_is_waited_for(self) -> None:
        process = subprocess.Popen(["sh", "-c", "while :; do :; done"])
        try:
            with self.assertRaises(TimeIsUp), time_limit(0.2), counted(process.pid):
                process.wait()
        finally:
            process.kill()
            process.wait()

    def test_the_clock_counts_in_the_end(self) -> None:
        with self.assertRaises(TimeIsUp), time_limit(0.05):
            time.sleep(60)

    def test_an_exception_that_is_lost(self) -> None:
        with self.assertRaises(TimeIsUp), time_limit(0.05):
            try:
                time.sleep(60)
            except TimeIsUp:
                time.sleep(60)

    def test_a_block_that_ends(self) -> None:
        with time_limit(0.05):
            pass
        time.sleep(0.1)


if __name__ == "__main__":
    unittest.main()
