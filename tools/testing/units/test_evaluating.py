"""Tests what the server is asked, and how rows for which it fails are found. The server is simulated by rules in
Python."""

import json
import random
import re
import unittest

from pgshard_tools.judging import evaluating, trials
from pgshard_tools.judging.database import Subscriber
from pgshard_tools.judging.shares import shares_of_all
from pgshard_tools.judging.values import constants_of, values_of
from units.catalogs import Meanings, column, database, entry, publication, table


class Session:
    """A server that fails if one of the rows of a query has a bad number."""

    def __init__(self, *bad):
        self.bad, self.asked = set(bad), []

    def ask(self, query):
        self.asked.append(query)
        numbers = [int(it) for it in re.findall(r"\((-?\d+)\)::integer", query)]
        if self.bad & set(numbers):
            return ""
        return json.dumps([[True] for _ in numbers])


def questions(filter="(id > 5)", checks=()):
    one = table(1, "t", checks=[{"name": f"c{n}", "text": it, "is_valid": True, "is_own": True} for n, it in enumerate(checks)])
    db = database([one], [publication("p", entry(1, filter))])
    shares = shares_of_all(db, [Subscriber("s", ["p"])])[0]
    return evaluating.questions_of(trials.read_of(shares, {"p": ["id"]}, Meanings()))


class Failures(unittest.TestCase):
    def test_rows_at_which_a_filter_fails(self) -> None:
        rows = [{"id": str(number), "region": "NULL"} for number in range(40)]
        for bad in (), (7,), (0, 39), (3, 4, 20):
            with self.subTest(bad):
                found = list(evaluating.asked(Session(*bad), questions(), rows, range(40), ["true"]))
                self.assertEqual(sorted(place for place, _ in found), list(range(40)))
                self.assertEqual(sorted(place for place, answer in found if answer is None), sorted(bad))

    def test_too_many_failures_end_it(self) -> None:
        rows = [{"id": str(number), "region": "NULL"} for number in range(400)]
        session = Session(*range(400))
        found = list(evaluating.asked(session, questions(), rows, range(400), ["true"]))
        self.assertEqual(len(session.asked), evaluating.MOST_QUESTIONS)
        self.assertTrue(all(answer is None for _, answer in found))
        # Rows about which the server was not asked count as not taken.
        outcomes = evaluating.outcomes(Session(*range(400)), questions(), rows)
        self.assertTrue(all(not it.is_accepted or it.is_failing for it in outcomes))

    def test_a_constraint_at_which_the_server_fails_takes_no_row(self) -> None:
        found = evaluating.outcomes(Session(3), questions(checks=["(id > 0)"]), [{"id": "3", "region": "NULL"}])
        self.assertFalse(found[0].is_accepted)


class Values(unittest.TestCase):
    def test_neighbours_and_ends(self) -> None:
        found = values_of(column(1, "id", not_null=True), constants_of(["(id > 100)"]), random.Random(1))
        self.assertLessEqual({"99", "100", "101", "-100", "-2147483648", "2147483647", "0", "-1"}, set(found))
        self.assertNotIn("NULL", found)
        self.assertTrue(all(-(1 << 31) <= int(it) < 1 << 31 for it in found))

    def test_null_and_labels(self) -> None:
        found = values_of(column(1, "mood", type="public.mood", kind="e", labels=["fine", "it's"]), [], random.Random(1))
        self.assertEqual(found, ["NULL", "'fine'", "'it''s'"])

    def test_constants(self) -> None:
        texts = ["(a = 5)", "(b ~~ 'x%'::text)", "(c > '2024-01-01'::date)", "(d < 1.5)", "(e.f = 'e')"]
        self.assertLessEqual({"5", "x%", "2024-01-01", "1.5", "e"}, set(constants_of(texts)))


if __name__ == "__main__":
    unittest.main()
