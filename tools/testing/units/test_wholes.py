"""Tests values as whole numbers in the server's order, and prefixes in byte order."""

import unittest

from pgshard_tools.judging import moments, prefixes, wholes
from pgshard_tools.judging.points import DAY

# Addresses in the order of a PostgreSQL 15 server, without duplicates.
ADDRESSES = [
    "0.0.0.0/0", "255.255.255.255/0", "0.0.0.0", "9.255.255.255", "10.0.0.0/8", "10.0.0.1/8", "10.255.255.255/8", "10.0.0.0/9",
    "10.0.0.0", "10.1.2.2/31", "10.1.2.3/31", "10.1.2.2", "10.1.2.3", "10.128.0.0/9", "10.255.255.255", "11.0.0.0/8", "11.0.0.0",
    "255.255.255.255", "::/0", "::1/64", "::", "::ffff", "ffff::1"]
SPANS = ["-1 days", "1 day -24:00:00", "00:00:00.000001", "1 day", "1 mon", "1 mon 00:00:00.5", "1 year", "1 year 2 mons 3 days 04:05:06.7"]


class Wholes(unittest.TestCase):
    def test_order(self) -> None:
        for type, listed in (("inet", ADDRESSES), ("interval", SPANS)):
            numbers = [wholes.point_of(type, it) for it in listed]
            self.assertEqual(numbers, sorted(set(numbers)))

    def test_texts(self) -> None:
        """The text of a value is read as that value."""
        listed = [("inet", it) for it in ADDRESSES] + [("interval", it) for it in SPANS]
        for type, text in [*listed, ("macaddr", "08:00:2b:01:02:03"), ("pg_lsn", "16/B374D848"), ("cidr", "10.0.0.0/8")]:
            point = wholes.point_of(type, text)
            self.assertEqual(wholes.point_of(type, wholes.text_of(type, point)), point)

    def test_refused(self) -> None:
        for text in ("", "P1D", "1 day ago", "12", "1 mons 2 years"):
            self.assertRaises(ValueError, wholes.point_of, "interval", text)

    def test_networks(self) -> None:
        """The addresses that a network contains, with or without the network itself, form one interval."""
        for net, with_itself, inside in (
                ("10.0.0.0/8", True, ADDRESSES[4:15]), ("10.0.0.1/8", False, ADDRESSES[7:15]), ("10.1.2.3", True, ["10.1.2.3"]),
                ("10.1.2.3", False, []), ("0.0.0.0/0", True, ADDRESSES[:18]), ("::/0", True, ADDRESSES[18:])):
            first, end = wholes.subnets(net, with_itself)
            found = [it for it in ADDRESSES if first <= wholes.point_of("inet", it) and (
                end is None or wholes.point_of("inet", it) < end)]
            self.assertEqual(found, inside, net)


class Prefixes(unittest.TestCase):
    def test_next(self) -> None:
        """The first text after all texts with a given prefix."""
        for prefix, following in (("a", "b"), ("ab", "ac"), ("a\x7f", "a\x80"), ("a\U0010FFFF", "b"), ("\ud7ff", "\ue000"),
                                  ("\U0010FFFF", None), ("\uffff", "\U00010000")):
            self.assertEqual(prefixes.next_text(prefix), following)

    def test_patterns(self) -> None:
        """The prefix of a pattern, and whether any text may follow."""
        for pattern, found in (("a%", ("a", True)), ("a", ("a", False)), ("%", ("", True)), ("", ("", False)), ("a%%", ("a", True)),
                               ("a\\%", ("a%", False)), ("a\\%%", ("a%", True)), ("a\\\\%", ("a\\", True)), ("%a", None), ("a_", None),
                               ("a%b", None), ("a\\", None)):
            self.assertEqual(prefixes.of_pattern(pattern), found)


class Units(unittest.TestCase):
    def test_begins(self) -> None:
        """Days since 2000-01-01, a Saturday."""
        for unit, day, begin, following in (
                ("week", 0, -5, 2), ("week", 2, 2, 9), ("month", 30, 0, 31), ("quarter", 100, 91, 182), ("year", -1, -365, 0),
                ("day", 7, 7, 8)):
            first = moments.last_begin(unit, day * DAY)
            self.assertEqual((first, moments.next_begin(unit, first)), (begin * DAY, following * DAY), unit)


if __name__ == "__main__":
    unittest.main()
