"""Tests who the subscribers are, depending on what is known about them."""

import unittest
from unittest import mock

from pgshard_tools.judging import subscribers
from pgshard_tools.judging.faults import BAD_COMMAND, NOT_READ, Fault
from units.catalogs import database, publication

PUBLICATIONS = [publication("europe"), publication("elsewhere"), publication("a b,c")]
START = "START_REPLICATION SLOT \"{0}\" LOGICAL 0/0 (proto_version '3', publication_names '{1}')"


def walsender(slot, names):
    return {"slot": slot, "query": START.format(slot, names)}


def subscription(name, *publications, slot="london", enabled=True):
    return {"name": name, "enabled": enabled, "slot": slot, "publications": list(publications)}


def told(found):
    return {it.name: it.publications for it in found}


class Order(unittest.TestCase):
    def test_each_publication(self) -> None:
        found, how = subscribers.subscribers_of(database([], PUBLICATIONS), None, [])
        self.assertEqual(told(found), {"europe": ["europe"], "elsewhere": ["elsewhere"], "a b,c": ["a b,c"]})
        self.assertEqual(how, subscribers.EACH)

    def test_the_variable_before_connections(self) -> None:
        db = database([], PUBLICATIONS, walsenders=[walsender("tokyo", "elsewhere")])
        self.assertEqual(told(subscribers.subscribers_of(db, "london=europe", [])[0]), {"london": ["europe"]})
        self.assertEqual(told(subscribers.subscribers_of(db, None, [])[0]), {"tokyo": ["elsewhere"]})


class Variable(unittest.TestCase):
    def test_forms(self) -> None:
        for text, expected in {
            "london=europe tokyo=elsewhere": {"london": ["europe"], "tokyo": ["elsewhere"]},
            "all=europe,elsewhere": {"all": ["europe", "elsewhere"]}, "europe": {"europe": ["europe"]},
            '"new york"="a b,c"': {"new york": ["a b,c"]}, "a=europe a=elsewhere": {"a": ["europe", "elsewhere"]},
        }.items():
            with self.subTest(text):
                self.assertEqual(told(subscribers.from_variable(database([], PUBLICATIONS), text)), expected)

    def test_a_publication_that_is_not_there(self) -> None:
        with self.assertRaises(Fault) as raised:
            subscribers.from_variable(database([], PUBLICATIONS), "london=europ")
        self.assertEqual(raised.exception.status, NOT_READ)


class Walsenders(unittest.TestCase):
    def test_a_copy_of_a_table_is_nobody(self) -> None:
        db = database([], PUBLICATIONS, walsenders=[walsender("pg_16400_sync_16390_7012", "europe")])
        self.assertEqual(subscribers.from_walsenders(db), [])

    def test_a_publication_that_is_not_there(self) -> None:
        db = database([], PUBLICATIONS, walsenders=[walsender("london", "europe,gone")])
        found = subscribers.from_walsenders(db)[0]
        self.assertEqual((found.publications, found.missing), (["europe"], ["gone"]))

    def test_a_command_that_is_cut_off(self) -> None:
        query = START.format("london", "europe,elsewhere")[:-5]
        with self.assertRaises(Fault) as raised:
            subscribers.from_walsenders(database([], PUBLICATIONS, walsenders=[{"slot": "london", "query": query}]))
        self.assertEqual(raised.exception.status, NOT_READ)

    def test_commands_that_the_role_may_not_see(self) -> None:
        hidden = {"slot": "paris", "query": None}
        self.assertEqual(subscribers.from_walsenders(database([], PUBLICATIONS, walsenders=[hidden])), [])
        with self.assertRaises(Fault) as raised:
            subscribers.from_walsenders(
                database([], PUBLICATIONS, walsenders=[walsender("london", "europe"), hidden]))
        self.assertEqual(raised.exception.status, NOT_READ)

    def test_slots_that_wait(self) -> None:
        db = database([], PUBLICATIONS, walsenders=[walsender("tokyo", "elsewhere")], slots=[
            {"name": "tokyo", "active": True}, {"name": "london", "active": False},
            {"name": "pg_1_sync_2_3", "active": False}])
        self.assertEqual(
            subscribers.subscribers_of(db, None, [])[1], "the subscribers are those that are connected now; nobody is "
            "connected to slot london, so its subscriber does not count")


class Databases(unittest.TestCase):
    def found(self, *rows, slots=("london",)):
        db = database([], PUBLICATIONS, slots=[{"name": it, "active": False} for it in slots])
        with mock.patch.object(subscribers, "subscriptions_at", return_value=list(rows)):
            return subscribers.from_databases(db, ["dbname=a"])

    def test_of_this_server(self) -> None:
        found = self.found(
            subscription("s", "europe"), subscription("other", "unknown", slot="far"),
            subscription("moved", "elsewhere", slot="moved"))
        self.assertEqual(told(found), {"s": ["europe"], "moved": ["elsewhere"]})

    def test_remarks(self) -> None:
        found = self.found(subscription("s", "europe", "gone", enabled=False))[0]
        self.assertEqual(found.remarks, ["subscription s is disabled",
                                         "subscription s takes publication gone, which does not exist"])
        self.assertEqual(found.missing, ["gone"])
        self.assertEqual(self.found(subscription("s", "europe", slot=None))[0].remarks, ["subscription s has no slot"])

    def test_two_of_one_name(self) -> None:
        found = self.found(subscription("s", "europe"), subscription("s", "elsewhere"))
        self.assertEqual(told(found), {"s": ["europe"], "s 2": ["elsewhere"]})

    def test_none(self) -> None:
        with self.assertRaises(Fault) as raised:
            self.found(subscription("other", "unknown", slot="far"))
        self.assertEqual(raised.exception.status, NOT_READ)

    def test_no_connection_text(self) -> None:
        with self.assertRaises(Fault) as raised:
            subscribers.subscriptions_at("london")
        self.assertEqual(raised.exception.status, BAD_COMMAND)


if __name__ == "__main__":
    unittest.main()
