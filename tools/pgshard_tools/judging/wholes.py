"""Values of types that are ordered like whole numbers: intervals, networks, MAC addresses and WAL positions."""

import ipaddress
import re
from fractions import Fraction

from pgshard_tools.judging.points import DAY, Point, clock_text, finite

# An interval as the server prints it: years, months and days, then a time.
SPAN = re.compile(r"(?:([-+]?\d+) years?)? ?(?:([-+]?\d+) mons?)? ?(?:([-+]?\d+) days?)? ?"
                  r"(?:([-+]?)(\d+):(\d\d):(\d\d)(?:\.(\d{1,6}))?)?")
# The number of bits in the addresses of each family.
BITS = {4: 32, 6: 128}


def point_of(type: str, text: str) -> Point:
    """Returns the number of a value; raises ValueError if the server would not print this text."""
    match type:
        case "interval":
            return finite(span(text))
        case "inet" | "cidr":
            return finite(network_number(*network(text)))
        case "macaddr":
            return finite(int(text.replace(":", ""), 16))
    high, low = text.split("/")
    return finite((int(high, 16) << 32) + int(low, 16))


def text_of(type: str, point: Point) -> str:
    """Returns a value as the server reads it."""
    number = int(point.value)
    match type:
        case "interval":
            months, rest = divmod(number, 30 * DAY)
            days, clock = divmod(rest, DAY)
            return f"{months} mons {days} days {clock_text(clock)}"
        case "inet" | "cidr":
            return network_text(number, with_bits=type == "cidr")
        case "macaddr":
            digits = f"{number:012x}"
            return ":".join(digits[at:at + 2] for at in range(0, 12, 2))
    return f"{number >> 32:X}/{number & 0xFFFFFFFF:X}"


def parts(text: str) -> tuple[int, int, int]:
    """Returns the months of an interval, its days of 24 hours each, and its time in microseconds."""
    found = SPAN.fullmatch(text)
    if found is None or not text:
        raise ValueError(text)
    years, months, days, sign, hours, minutes, seconds, rest = (it or "0" for it in found.groups())
    clock = ((int(hours) * 60 + int(minutes)) * 60 + int(seconds)) * 1_000_000 + int(
        rest.ljust(6, "0") if found.group(8) else 0)
    return int(years) * 12 + int(months), int(days) * DAY, -clock if sign == "-" else clock


def span(text: str) -> int:
    """Returns an interval as the server compares it: with 30 days per month and 24 hours per day."""
    months, days, clock = parts(text)
    return months * 30 * DAY + days + clock


def network(text: str) -> tuple[int, int, int]:
    """Returns the family of an address, its number, and the bits of its network."""
    address, _, bits = text.partition("/")
    found = ipaddress.ip_address(address)
    return found.version, int(found), int(bits) if bits else BITS[found.version]


def below(width: int, depth: int) -> int:
    """Returns how many networks are in one with some bits, including itself."""
    return int(2 ** (width - depth + 1) - 1)


def network_number(family: int, address: int, bits: int) -> int:
    """Returns the place of an address in the server's order: by family, then by the bits of their networks, where the
    shorter of two comes first, and then by the other bits."""
    width = BITS[family]
    place = 0
    for bit in range(1, bits + 1):
        place += 1 + (below(width, bit) if address >> (width - bit) & 1 else 0)
    begin = 0 if family == 4 else first_of(6)
    return begin + (place << width) + (address & ((1 << (width - bits)) - 1))


def first_of(family: int) -> int:
    """Returns the place of the first address of a family, or the end of the last family."""
    return 0 if family == 4 else below(32, 0) << 32 if family == 6 else first_of(6) + (below(128, 0) << 128)


def network_text(number: int, with_bits: bool) -> str:
    """Returns the address at a place. If there is none, it is one before it in the same network."""
    family = 4 if number < first_of(6) else 6
    width = BITS[family]
    place, host = divmod(number - first_of(family) if family == 6 else number, 1 << width)
    address, bits = 0, 0
    while place > 0:
        bits += 1
        place -= 1
        is_one = place >= below(width, bits)
        place -= below(width, bits) if is_one else 0
        address |= is_one << (width - bits)
    address |= host & ((1 << (width - bits)) - 1)
    kind = ipaddress.IPv4Address if family == 4 else ipaddress.IPv6Address
    return f"{kind(address)}" + (f"/{bits}" if bits < width or with_bits else "")


def subnets(text: str, with_itself: bool) -> tuple[Point, Point | None]:
    """Returns the first address that a network contains, and the first one after it, or None if there is none."""
    family, address, bits = network(text)
    width = BITS[family]
    base = address >> (width - bits) << (width - bits)
    begin = network_number(family, base, bits)
    end = begin + (below(width, bits) << width)
    if not with_itself:
        # Those with the same number of bits come before all longer ones.
        begin += 1 << width
    return finite(begin), None if end >= first_of(7) else finite(Fraction(end))
