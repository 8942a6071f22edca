"""Points of the server's ordered types: numbers as fractions, times as microseconds, and the values at both ends."""

import functools
import re
from dataclasses import dataclass
from fractions import Fraction

DAY = 86_400_000_000
# Days since 2000-01-01: the first and the last day that the server accepts.
FIRST_DAY, LAST_DAY = -2_451_545, 2_145_031_948
# Microseconds since then. The server reads and computes timestamps up to LAST_READ. Rounding to fewer digits, as by
# ::timestamp(0), leads to one more, LAST_TIME, which each column can hold, even one with all digits.
FIRST_TIME, LAST_TIME = FIRST_DAY * DAY, 9_223_371_331_200_000_000
LAST_READ = LAST_TIME - 1
DATE = re.compile(r"(\d{4,7})-(\d\d)-(\d\d)")
TIME = re.compile(r"(\d\d):(\d\d):(\d\d)(?:\.(\d{1,6}))?")


@functools.total_ordering
@dataclass(frozen=True)
class Point:
    """A finite point, or one beyond all of them: -infinity is below, infinity is above, and NaN is above infinity."""

    side: int
    value: Fraction = Fraction(0)

    def __lt__(self, other: "Point") -> bool:
        return (self.side, self.value) < (other.side, other.value)

    @property
    def is_finite(self) -> bool:
        return self.side == 0


LEAST, GREATEST, NOT_A_NUMBER = Point(-1), Point(1), Point(2)


def finite(number: int | Fraction) -> Point:
    return Point(0, Fraction(number))


def number_point(text: str) -> Point:
    """Returns the point of a number as the server prints it."""
    word = text.strip().lower()
    match word:
        case "nan":
            return NOT_A_NUMBER
        case "infinity" | "+infinity" | "inf":
            return GREATEST
        case "-infinity" | "-inf":
            return LEAST
    return finite(Fraction(word))


def number_text(point: Point) -> str:
    match point.side:
        case -1:
            return "-Infinity"
        case 1:
            return "Infinity"
        case 2:
            return "NaN"
    value = point.value
    if value.denominator == 1:
        return str(value.numerator)
    digits = 0
    while (value * 10**digits).denominator != 1 and digits < 400:
        digits += 1
    scaled = abs(int(value * 10**digits))
    sign = "-" if value < 0 else ""
    return f"{sign}{scaled // 10**digits}.{scaled % 10**digits:0{digits}d}"


def days_of(year: int, month: int, day: int) -> int:
    """Returns days since 2000-01-01 in the Gregorian calendar, with a year 0 before the year 1."""
    year -= month <= 2
    era, of_era = divmod(year, 400)
    of_year = (153 * (month + (-3 if month > 2 else 9)) + 2) // 5 + day - 1
    return era * 146_097 + of_era * 365 + of_era // 4 - of_era // 100 + of_year - 730_425


def date_of(days: int) -> tuple[int, int, int]:
    """Returns the year, month and day for a number of days since 2000-01-01."""
    era, of_era = divmod(days + 730_425, 146_097)
    year = (of_era - of_era // 1460 + of_era // 36_524 - of_era // 146_096) // 365
    of_year = of_era - (365 * year + year // 4 - year // 100)
    month = (5 * of_year + 2) // 153
    day = of_year - (153 * month + 2) // 5 + 1
    month += 3 if month < 10 else -9
    return year + era * 400 + (month <= 2), month, day


def infinite(text: str) -> Point | None:
    """Returns the point of the words infinity and -infinity, or None."""
    return {"infinity": GREATEST, "-infinity": LEAST}.get(text.strip().lower())


def date_point(text: str) -> Point:
    """Returns the point of a date in ISO form, in days; `BC` may follow."""
    if point := infinite(text):
        return point
    found = DATE.match(text)
    if found is None:
        raise ValueError(text)
    year, month, day = (int(part) for part in found.groups())
    return finite(days_of(1 - year if text.endswith("BC") else year, month, day))


def clock_point(text: str) -> Point:
    """Returns the point of a time of day, in microseconds."""
    found = TIME.search(text)
    if found is None:
        raise ValueError(text)
    hours, minutes, seconds, rest = found.groups()
    whole = (int(hours) * 60 + int(minutes)) * 60 + int(seconds)
    return finite(whole * 1_000_000 + int((rest or "").ljust(6, "0")))


def time_point(text: str) -> Point:
    """Returns the point of a timestamp in ISO form, in microseconds. A timestamp with time zone is given in UTC."""
    if point := infinite(text):
        return point
    return finite(date_point(text).value * DAY + clock_point(text).value)


def date_text(point: Point) -> str:
    if not point.is_finite:
        return "infinity" if point == GREATEST else "-infinity"
    year, month, day = date_of(int(point.value))
    return f"{year:04d}-{month:02d}-{day:02d}" if year > 0 else f"{1 - year:04d}-{month:02d}-{day:02d} BC"


def clock_text(microseconds: int) -> str:
    seconds, rest = divmod(microseconds, 1_000_000)
    fraction = f".{rest:06d}".rstrip("0") if rest else ""
    return f"{seconds // 3600:02d}:{seconds // 60 % 60:02d}:{seconds % 60:02d}{fraction}"


def time_text(point: Point, zone: str = "") -> str:
    if not point.is_finite:
        return date_text(point)
    days, clock = divmod(int(point.value), DAY)
    date, _, era = date_text(finite(days)).partition(" ")
    return f"{date} {clock_text(clock)}{zone}" + (f" {era}" if era else "")


def uuid_point(text: str) -> Point:
    return finite(int(text.replace("-", "").strip("{}"), 16))


def uuid_text(point: Point) -> str:
    digits = f"{int(point.value):032x}"
    return "-".join([digits[:8], digits[8:12], digits[12:16], digits[16:20], digits[20:]])
