"""Rows of the columns in forms.py: the limits of each type, values that the filters name, nulls, and random values."""

import random

INTEGERS = [0, 1, -1, 2, -2, 3, 4, 5, -5, 6, 7, 8, 9, -9, 10]
SMALL = [*INTEGERS, 32767, -32768, 32766, -32767]
MIDDLE = [*SMALL, 32768, -32769, 2147483647, -2147483648, 2147483646]
# pgshard does not read the least bigint as a number.
LARGE = [
    *MIDDLE, 2147483648, -2147483649, 3000000000, -3000000000, 3000000005, 6000000005,
    9223372036854775807, -9223372036854775807,
]
TEXTS = [
    "", "a", "b", "it's", "''", "'", '"', r"one\slash", "\\", r"\\", "-- no comment", "/* none", "(2)::bigint",
    "'-5'::integer", "(s)::integer", "(v)::text", "= ANY (ARRAY[1, 2])", "ARRAY[1])", "1", "-5", '"Up"',
    "a'::text OR true --", "é漢😀", "%%", "A", "a ", " a", "two lines", "éa",
]


def integer(chance, some, bits):
    if chance.random() < 0.1:
        return "NULL"
    if chance.random() < 0.3:
        return str(chance.randrange(-(2 ** (bits - 1)) + 1, 2 ** (bits - 1)))
    return str(chance.choice(some))


def boolean(chance):
    return chance.choice(["NULL", "TRUE", "FALSE"])


def text(chance):
    return "NULL" if chance.random() < 0.1 else "'" + chance.choice(TEXTS).replace("'", "''") + "'"


def rows(count):
    """Yields rows in the syntax that SQL and pgshard share, in the order of their ids."""
    chance = random.Random(15)
    for identity in range(count):
        yield "({})".format(", ".join([
            str(identity),
            integer(chance, SMALL, 16), integer(chance, MIDDLE, 32), integer(chance, LARGE, 64), boolean(chance),
            text(chance), text(chance), text(chance),
            integer(chance, MIDDLE, 32), boolean(chance), text(chance), text(chance), integer(chance, SMALL, 16),
        ]))
