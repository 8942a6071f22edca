"""Tests the commands of clients, as their sources write them, and the names that SplitIdentifierString reads."""

import unittest

from pgshard_tools.judging.walsenders import names_in, publication_names

COMMANDS = {
    "libpqwalreceiver":
        '''START_REPLICATION SLOT "london" LOGICAL 0/0 (proto_version '3', publication_names '"europe","a ""b"""')''',
    "pg_recvlogical":
        '''START_REPLICATION SLOT "x" LOGICAL 0/0 ("proto_version" '1', "publication_names" 'europe,"a ""b"""')''',
    "psycopg2":
        '''START_REPLICATION SLOT "x" LOGICAL 0/00000000 ("proto_version" '1', "publication_names" 'europe, "a ""b"""')''',
    "pgjdbc":
        '''START_REPLICATION SLOT x LOGICAL 0/16B3748 ("proto_version" '1', "publication_names" 'Europe,"a ""b"""')''',
    "by hand":
        '''START_REPLICATION SLOT x LOGICAL 0/0 (binary, PUBLICATION_NAMES 'europe\n, "a ""b""" ,europe');''',
}


class Commands(unittest.TestCase):
    def test_of_clients(self) -> None:
        for client, command in COMMANDS.items():
            with self.subTest(client):
                self.assertEqual(publication_names(command), ["europe", 'a "b"'])

    def test_apostrophes(self) -> None:
        self.assertEqual(publication_names(
            "START_REPLICATION SLOT x LOGICAL 0/0 (publication_names '\"it''s\"')"), ["it's"])

    def test_parentheses_and_commas_in_names(self) -> None:
        self.assertEqual(publication_names(
            """START_REPLICATION SLOT x LOGICAL 0/0 (publication_names '"a),(b"', proto_version '1')"""), ["a),(b"])

    def test_each_begin_of_a_command_is_cut_off(self) -> None:
        command = COMMANDS["pgjdbc"]
        for length in range(len(command)):
            with self.subTest(command[:length]):
                self.assertIsNone(publication_names(command[:length]))

    def test_no_names(self) -> None:
        for command in ("START_REPLICATION SLOT x LOGICAL 0/0", "START_REPLICATION SLOT x LOGICAL 0/0 ()",
                        "START_REPLICATION SLOT x LOGICAL 0/0 (proto_version '1')"):
            with self.subTest(command):
                self.assertIsNone(publication_names(command))


class Names(unittest.TestCase):
    def test_lists(self) -> None:
        for listed, names in {
            "a": ["a"], " A , b ": ["a", "b"], '"A"': ["A"], '"a,b",c': ["a,b", "c"], "a,a": ["a"],
            "": None, "a,": None, "a b": None, '"a': None, 'a"b"': None, "a" * 70: ["a" * 63],
        }.items():
            with self.subTest(listed):
                self.assertEqual(names_in(listed), names)


if __name__ == "__main__":
    unittest.main()
