"""Tests the command line."""

import unittest

from pgshard_tools.judging.faults import BAD_COMMAND, Fault
from pgshard_tools.judging.options import options_of


class Connection(unittest.TestCase):
    def test_words_for_psql(self) -> None:
        for words, expected in {
            ("shop",): ["-d", "shop"], ("shop", "me"): ["-d", "shop", "-U", "me"],
            ("-d", "shop", "me"): ["-d", "shop", "-U", "me"], ("-dshop",): ["-d", "shop"],
            ("--dbname=shop", "-w"): ["-d", "shop", "-w"], ("--json", "shop", "--all"): ["-d", "shop"],
            ("-h", "db1", "-p", "5433", "-U", "me"): ["-h", "db1", "-p", "5433", "-U", "me"],
            ("--host", "db1", "--username=me", "-W"): ["-h", "db1", "-U", "me", "-W"], (): [],
        }.items():
            with self.subTest(words):
                self.assertEqual(options_of(words).words, expected)


class Own(unittest.TestCase):
    def test_values(self) -> None:
        found = options_of(["--copied", "a", "--copied=b", "--partial", "c", "--catalog=d", "--seconds", "0.5",
                            "--subscriber", "host=x dbname=y", "--strict", "--explain"])
        self.assertEqual((found.copied, found.partial, found.catalog, found.seconds), (["a", "b"], ["c"], "d", 0.5))
        self.assertEqual((found.subscriber, found.strict, found.explain, found.json),
                         (["host=x dbname=y"], True, True, False))

    def test_the_variable(self) -> None:
        for words in (["-v", "subscriptions=a=b"], ["-vsubscriptions=a=b"], ["--set", "subscriptions=a=b"],
                      ["--variable=subscriptions=a=b"], ["-v", "subscriptions=c", "--set=subscriptions=a=b"]):
            with self.subTest(words):
                self.assertEqual(options_of(words).subscriptions, "a=b")
        self.assertIsNone(options_of(["-v", "subscriptions="]).subscriptions)
        self.assertIsNone(options_of([]).subscriptions)


class Faults(unittest.TestCase):
    def test_ranges(self) -> None:
        for words, why in {
            ("--rows", "0"): "argument --rows: it takes 1 to 10,000, not 0",
            ("--rows", "10001"): "argument --rows: it takes 1 to 10,000, not 10001",
            ("--rows=-1",): "argument --rows: it takes 1 to 10,000, not -1",
            ("--seconds", "0"): "argument --seconds: it takes seconds above 0 and below 1,000,000, not 0",
            ("--watch", "often"): "argument --watch: it takes seconds above 0 and below 1,000,000, not often",
        }.items():
            with self.subTest(words), self.assertRaises(Fault) as raised:
                options_of(words)
            self.assertEqual(raised.exception.words, f"{why}; --help lists the options")

    def test_each_is_named(self) -> None:
        for words, named in {
            ("--strickt",): "--strickt", ("--exp",): "--exp", ("-x",): "-x", ("--copied",): "--copied",
            ("--seconds", "0"): "--seconds", ("--seconds", "ten"): "--seconds", ("--seconds", "nan"): "--seconds",
            ("-v", "other=1"): "other", ("a", "b", "c"): "c", ("--json=1",): "--json",
        }.items():
            with self.subTest(words), self.assertRaises(Fault) as raised:
                options_of(words)
            self.assertEqual(raised.exception.status, BAD_COMMAND)
            self.assertIn(named, raised.exception.words)


if __name__ == "__main__":
    unittest.main()
