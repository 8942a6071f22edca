"""How a compared value becomes a column that pgshard reads: each value has a code, which is a whole number.

For each comparison, a coding gives the ranges of codes for which it is TRUE. This is exact in both directions: two
values with the same code are distinguished by no comparison that occurs, and each code between the ends has a value, or
is known to have none.
"""

import math
from fractions import Fraction
from typing import Any, Iterable, Iterator

from pgshard_tools.judging import points, ranges, server_types
from pgshard_tools.judging.formulas import Subject
from pgshard_tools.judging.points import GREATEST, LEAST, NOT_A_NUMBER, Point
from pgshard_tools.judging.ranges import Ranges
from pgshard_tools.judging.server_types import INTEGERS, WHOLE

# Values of these types are never below zero.
FROM_ZERO = {"uuid", "inet", "cidr", "macaddr", "pg_lsn"}


class Coding:
    """A printed column, or a remainder of one."""

    modulus: int | None = None
    # Whether pgshard knows from the printed type that there is no code beyond the ends.
    is_tight = False

    def __init__(self, subject: Subject, printed_type: str, low: int, high: int) -> None:
        self.subject = subject
        self.printed_type = printed_type
        self.low, self.high = low, high
        # The printed name, and whether the column is NOT NULL, are determined later for the whole table.
        self.name = ""
        self.not_null = False

    @property
    def full(self) -> Ranges:
        return ((self.low, self.high),)

    def ranges_of(self, op: str, point: Any) -> Ranges:
        """Returns the codes for which a comparison with a value is TRUE. `op` is one of = < <=."""
        raise NotImplementedError

    def literal(self, code: int) -> str:
        """Returns a code as it is printed."""
        return str(code)

    def code_printed(self, text: str) -> int:
        """Returns the code of a printed value, or the nearest code that has a value on the server."""
        return min(max(int(text), self.low), self.high)

    def value(self, code: int) -> Any:
        """Returns a server value with this code, or None if none is known."""
        raise NotImplementedError

    def encoded(self, text: str) -> str:
        """Returns what is printed for a value, given in the server's text form."""
        value = server_types.value_of(self.subject.type, text)
        (low, _), = self.ranges_of("=", value)
        return self.literal(low)

    def constant(self, code: int) -> str:
        """Returns the value of a code as an SQL constant."""
        return server_types.literal(self.subject.type, self.value(code))


class Steps(Coding):
    """Values that are integer multiples of a unit, with one code beyond each end for infinite values.

    A compared number need not be a multiple: the values below it are those whose multiple is below the number in units.
    """

    def __init__(self, subject: Subject, printed_type: str, low: int, high: int, unit: int | Fraction = 1,
                 below: Point | None = None, above: Point | None = None) -> None:
        super().__init__(subject, printed_type, low - (below is not None), high + (above is not None))
        self.unit = Fraction(unit)
        self.below, self.above = below, above

    def ranges_of(self, op: str, point: Any) -> Ranges:
        last = self.high - (self.above is not None)
        first = self.low + (self.below is not None)
        if point.is_finite:
            found = ranges.compared(op, point.value / self.unit, first, last)
            has_less = op != "=" and self.below is not None
            return ranges.union(found, [(self.low, self.low)] if has_less else [])
        if point.side < 0:
            is_there = self.below is not None and op != "<"
            return ((self.low, self.low),) if is_there else ()
        return self.past(op, point, last)

    def past(self, op: str, point: Point, last: int) -> Ranges:
        """A point above all finite ones: the value beyond the end is this point, or a greater or a lesser one."""
        if op == "=":
            return ((self.high, self.high),) if self.above == point else ()
        if self.above is None:
            return self.full
        is_in = self.above < point or self.above == point and op == "<="
        return self.full if is_in else ((self.low, last),)

    def value(self, code: int) -> Any:
        if self.below is not None and code == self.low:
            return self.below
        if self.above is not None and code == self.high:
            return self.above
        return Point(0, code * self.unit)


class Integers(Steps):
    """An integer column, which is its own code."""

    is_tight = True

    def __init__(self, subject: Subject) -> None:
        bits, printed_type = INTEGERS[subject.type]
        super().__init__(subject, printed_type, -(2 ** (bits - 1)), 2 ** (bits - 1) - 1)


class Signs(Coding):
    """The result of comparing two subjects."""

    def __init__(self, subject: Subject) -> None:
        super().__init__(subject, "smallint", -1, 1)

    def ranges_of(self, op: str, point: Any) -> Ranges:
        return ranges.compared(op, point.value, -1, 1)

    def value(self, code: int) -> Any:
        return None

    def encoded(self, text: str) -> str:
        return text

    def constant(self, code: int) -> str:
        return str(code)


class Bits(Coding):
    """A run of bits of a column as a number. In SQL it is scaled, since the mask leaves the bits in their places."""

    def __init__(self, subject: Subject) -> None:
        super().__init__(subject, "integer" if subject.modifier < 32 else "bigint", 0, 2**subject.modifier - 1)

    def ranges_of(self, op: str, point: Any) -> Ranges:
        return ranges.compared(op, point.value, self.low, self.high)

    def value(self, code: int) -> Any:
        return None

    def encoded(self, text: str) -> str:
        return self.literal(int(text) >> self.subject.bits_below)

    def constant(self, code: int) -> str:
        return str(code << self.subject.bits_below)


class Remainders(Coding):
    """An integer column of which only the remainder by a modulus matters. It is NULL exactly if the column is."""

    is_tight = True
    modulus: int

    def __init__(self, base: Coding, modulus: int) -> None:
        super().__init__(base.subject, base.printed_type, max(1 - modulus, base.low), min(modulus - 1, base.high))
        self.base = base
        self.modulus = modulus

    def lifted(self, modulus: int, found: Ranges) -> Ranges:
        """Converts ranges of remainders by a divisor of this modulus to ranges of remainders by this modulus: if n
        divides m, c % n is (c % m) % n."""
        if modulus == self.modulus:
            return ranges.intersection(found, self.full)
        wanted = set(ranges.numbers_of(found))
        return ranges.of_numbers(
            it for it in range(self.low, self.high + 1) if ranges.remainder(it, modulus) in wanted)

    def value(self, code: int) -> Any:
        return None

    def constant(self, code: int) -> str:
        return str(code)


class Truths(Coding):
    """A boolean: 0 for FALSE and 1 for TRUE."""

    is_tight = True

    def __init__(self, subject: Subject) -> None:
        super().__init__(subject, "boolean", 0, 1)

    def ranges_of(self, op: str, value: Any) -> Ranges:
        return ((int(value), int(value)),)

    def literal(self, code: int) -> str:
        return "TRUE" if code else "FALSE"

    def code_printed(self, text: str) -> int:
        return int(text == "TRUE")

    def value(self, code: int) -> Any:
        return bool(code)


class Nulls(Coding):
    """A column of any type that is only tested for NULL: all other values have one code."""

    def __init__(self, subject: Subject) -> None:
        super().__init__(subject, "text", 0, 0)

    def literal(self, code: int) -> str:
        return "''"

    def code_printed(self, text: str) -> int:
        return 0

    def encoded(self, text: str) -> str:
        return "''"

    def value(self, code: int) -> Any:
        return None


class Labels(Coding):
    """Values that are only compared for equality, as texts: one code for each constant, and one for all other values.

    A constant has no code if no value of the type can equal it, because it is too long or ends with blanks that the
    type drops.
    """

    def __init__(self, subject: Subject, constants: Iterable[Any]) -> None:
        self.subject = subject
        self.limit = server_types.length_limit(subject.type, subject.modifier)
        self.words = sorted({self.word(it) for it in constants if self.is_possible(it)})
        super().__init__(subject, "text", 0, len(self.words))

    def word(self, value: Any) -> str:
        return server_types.text_of(self.subject_type(value), value)

    def subject_type(self, value: Any) -> str:
        return self.subject.type if isinstance(value, Point) else "text"

    def is_possible(self, value: Any) -> bool:
        if isinstance(value, Point):
            return True
        is_cut = self.subject.type == "bpchar" and value != value.rstrip(" ")
        return not is_cut and (self.limit is None or len(value) <= self.limit)

    def ranges_of(self, op: str, value: Any) -> Ranges:
        word = self.word(value)
        return ((self.words.index(word),) * 2,) if word in self.words else ()

    def literal(self, code: int) -> str:
        return server_types.quoted(self.words[code] if code < len(self.words) else self.other())

    def other(self) -> str:
        return next(it for it in self.others() if it not in self.words)

    def others(self) -> Iterator[str]:
        """Yields plain values of the type, the simplest first."""
        type = self.subject.type
        for number in range(len(self.words) + 1):
            match type:
                case "inet" | "cidr":
                    yield f"0.0.0.{number}" + ("/32" if type == "cidr" else "")
                case _ if type in WHOLE:
                    yield server_types.text_of(type, points.finite(number))
                case "bytea":
                    yield "\\x" + (f"{number:02x}" if number else "")
                case _:
                    yield "" if number == 0 else chr(0x60 + number) if number < 27 else f"{number}"

    def code_printed(self, text: str) -> int:
        word = text[1:-1].replace("''", "'")
        return self.words.index(word) if word in self.words else len(self.words)

    def value(self, code: int) -> Any:
        word = self.words[code] if code < len(self.words) else self.other()
        return server_types.value_of(self.subject.type, word) if self.subject.type in WHOLE else word

    def encoded(self, text: str) -> str:
        value = server_types.value_of(self.subject.type, text)
        return server_types.quoted(self.word(value))


class Enumerated(Coding):
    """An enum: the code of a value is its place."""

    def __init__(self, subject: Subject) -> None:
        super().__init__(subject, "integer", 0, len(subject.labels) - 1)

    def ranges_of(self, op: str, value: Any) -> Ranges:
        place = self.subject.labels.index(value)
        if op == "=":
            return ((place, place),)
        return ranges.normal([(self.low, place if op == "<=" else place - 1)])

    def value(self, code: int) -> Any:
        return self.subject.labels[code]

    def encoded(self, text: str) -> str:
        return self.literal(self.subject.labels.index(text))

    def constant(self, code: int) -> str:
        return server_types.quoted(self.subject.labels[code])


class Ranks(Coding):
    """Values of a type with a dense order: each constant has a code, and so does each gap between two neighbouring
    constants.

    The order decides each comparison, so values between the same neighbours are never distinguished. If there is no
    value between two neighbours, or beyond the first or the last constant, there is no code.
    """

    def __init__(self, subject: Subject, constants: list[Any]) -> None:
        self.constants = constants
        self.codes, code = [], 0
        for place, constant in enumerate(constants):
            if place > 0 and self.has_between(subject, constants[place - 1], constant):
                code += 1
            self.codes.append(code)
            code += 1
        super().__init__(
            subject, "integer", -self.has_less(constants[0], subject), code - 1 + self.has_more(constants[-1], subject))

    @staticmethod
    def has_between(subject: Subject, one: Any, other: Any) -> bool:
        if subject.type in WHOLE:
            return bool(other.value - one.value > 1)
        return bool((one, other) != (GREATEST, NOT_A_NUMBER))

    @staticmethod
    def has_less(constant: Any, subject: Subject) -> bool:
        return constant not in (LEAST, "") and not (subject.type in FROM_ZERO and constant.value == 0)

    @staticmethod
    def has_more(constant: Any, subject: Subject) -> bool:
        return constant != NOT_A_NUMBER and not (subject.type == "uuid" and constant.value == 2**128 - 1)

    def ranges_of(self, op: str, value: Any) -> Ranges:
        code = self.codes[self.constants.index(value)]
        if op == "=":
            return ((code, code),)
        return ranges.normal([(self.low, code if op == "<=" else code - 1)])

    def place(self, code: int) -> tuple[int, bool]:
        """Returns the index of a code's constant, or of the last constant below it, and whether the code is that
        constant."""
        place = sum(it <= code for it in self.codes) - 1
        return place, place >= 0 and self.codes[place] == code

    def value(self, code: int) -> Any:
        place, is_constant = self.place(code)
        if is_constant:
            return self.constants[place]
        low = self.constants[place] if place >= 0 else None
        high = self.constants[place + 1] if place + 1 < len(self.constants) else None
        return self.between(low, high)

    def between(self, low: Any, high: Any) -> Any:
        """Returns a plain value between two neighbours, one of which may be None. The least text is the empty one."""
        if isinstance(low if low is not None else high, str):
            return "" if low is None else self.text_above(low)
        if low is None or low == LEAST:
            return Point(0, Fraction(math.floor(high.value) - 1)) if high is not None and high.is_finite else Point(0)
        if high is None or not high.is_finite:
            return NOT_A_NUMBER if low.side > 0 else Point(0, Fraction(math.floor(low.value) + 1))
        middle = (low.value + high.value) / 2
        is_whole = self.subject.type in WHOLE or math.floor(middle) > low.value
        return Point(0, Fraction(math.floor(middle))) if is_whole else Point(0, middle)

    def text_above(self, low: str) -> str:
        """Returns a text above this one: a longer text that begins with it, or, if there is no room, one with a later
        last letter. A char drops trailing blanks."""
        limit = server_types.length_limit(self.subject.type, self.subject.modifier)
        if limit is not None and len(low) >= limit:
            return low[:limit - 1] + chr(ord(low[limit - 1]) + 1)
        return low + ("!" if self.subject.type == "bpchar" else " ")

    def encoded(self, text: str) -> str:
        value = server_types.value_of(self.subject.type, text)
        if value in self.constants:
            return self.literal(self.codes[self.constants.index(value)])
        below = [code for code, constant in zip(self.codes, self.constants) if constant < value]
        return self.literal(below[-1] + 1 if below else self.low)
