"""Families of shardings that grow with the number of subscribers. For each sharding, `make` finds a certificate that
`check` accepts, or, if one of the conditions is slightly wrong, a row that shows the fault."""

from collections.abc import Iterator, Sequence

from .case import LONG_SECONDS, Case, Made, Outline, Sized

# The columns of a table: a key of one of the integer types, a region or null, and a boolean or null.
KEYS = ["id smallint PRIMARY KEY", "id integer PRIMARY KEY", "id bigint PRIMARY KEY"]
ID = KEYS[1]
REGION = f"{ID}, region text"
NOT_NULL_REGION = f"{REGION} NOT NULL"
PAID = f"{ID}, paid boolean"

# The numbers of subscribers.
COUNTS = [2, 3, 8, 16, 31, 32]


def catalog(columns: str, filters: Sequence[str]) -> str:
    """Returns a table with these columns, and a subscriber for each of the filters."""
    lines = [f"CREATE TABLE t ({columns});", "ALTER TABLE t REPLICA IDENTITY FULL;"]
    for number, condition in enumerate(filters):
        lines.append(f"CREATE PUBLICATION p{number} FOR TABLE t WHERE ({condition});")
        lines.append(f"CREATE SUBSCRIPTION s{number} CONNECTION '' PUBLICATION p{number};")
    return "\n".join(lines) + "\n"


def one_range(number: int, count: int, end: int, falls: bool = False) -> str:
    """Returns a range of a hundred numbers up to an end. The first range has no lower end, and the last no upper
    end."""
    parts = ["TRUE"]
    if number > 0:
        parts.append(f"id > {100 * number - 1}" if falls else f"id >= {100 * number}")
    if number < count - 1:
        parts.append(f"{end - 1} >= id" if falls else f"NOT id >= {end}")
    return " AND ".join(parts)


def ranges(count: int, by: int = 0, falls: bool = False) -> list[str]:
    """Returns ranges of hundreds, of which the one in the middle ends this much later. Falling ranges use other
    operators too."""
    middle = count // 2 - 1
    rising = [one_range(at, count, 100 * at + 100 + (by if at == middle else 0), falls) for at in range(count)]
    return rising[::-1] if falls else rising


def remainders(count: int, has_negative: bool) -> list[str]:
    """Returns a remainder for each subscriber, with or without the negative remainder."""
    return [
        f"id % {count} = {at}" + (f" OR id % {count} = -{at}" if has_negative and at > 0 else "") for at in range(count)]


def regions(count: int, others: str) -> list[str]:
    """Returns two regions for each subscriber except the last, which has the rows that pass this test of the others."""
    named = [f"region = 'a{at}' OR 'b{at}' = region" for at in range(1, count)]
    return [*named, f"({' OR '.join(['FALSE', *named])}) {others}"]


def region_lists(count: int, size: int, others: str) -> list[str]:
    """Returns a list of regions for each subscriber except the last, which has what is in none of the lists."""
    lists = [", ".join(f"'r{at}_{place}'" for place in range(size)) for at in range(1, count)]
    return [*(f"region IN ({it})" for it in lists), f"{' AND '.join(f'region NOT IN ({it})' for it in lists)} {others}"]


def key_lists(count: int, size: int, left_out: int) -> list[str]:
    """Returns lists of remainders by the number of all entries; negative remainders are with positive ones, and this
    many are left out."""
    divisor = count * size
    shares = []
    for at in range(count):
        numbers = range(at, divisor, count)
        entries = [str(it) for it in numbers] + [f"-{it}" for it in numbers if it > 0]
        shares.append(f"id % {divisor} IN ({', '.join(entries[:len(entries) - (left_out if at == 0 else 0)])})")
    return shares


def betweens(count: int, by: int) -> list[str]:
    """Returns ranges by BETWEEN, with one range below the first and one above the last. The first BETWEEN ends this
    much later."""
    inner = [f"id BETWEEN {100 * at} AND {100 * at + 99 + (by if at == 1 else 0)}" for at in range(1, count - 1)]
    return ["id < 100", *inner, f"id >= {100 * (count - 1)}"]


def regions_in_ranges(places: int, count: int, by: int) -> list[str]:
    """Returns each of this many regions in each of this many ranges. The last region has the others too."""
    filters = []
    for place in range(places):
        named = " OR ".join(["FALSE", *(f"region = 'r{other}'" for other in range(place))])
        where = f"region = 'r{place}'" if place < places - 1 else f"({named}) IS NOT TRUE"
        for at in range(count):
            moved = by if place == 0 and at == 0 else 0
            filters.append(f"{where} AND {one_range(at, count, 100 * at + 100 + moved)}")
    return filters


def flags(count: int, others: str) -> list[str]:
    """Returns a boolean that is true, and the others by this test, in each of this many ranges."""
    found = [one_range(at, count, 100 * at + 100) for at in range(count)]
    return [f"paid {test} AND {it}" for it in found for test in ("IS TRUE", others)]


def pairs(count: int) -> tuple[str, list[str]]:
    """Returns the columns of this many pairs of booleans, and filters for the rows in which both of some pair are true,
    and for the others."""
    columns = "".join(f", a{at} boolean NOT NULL, b{at} boolean NOT NULL" for at in range(count))
    some = " OR ".join(["FALSE", *(f"a{at} AND b{at}" for at in range(count))])
    return ID + columns, [some, f"NOT ({some})"]


def names(count: int, letters: str) -> list[str]:
    """Returns names of this many columns for each of these letters."""
    return [f"{letter}{at}" for at in range(count) for letter in letters]


def nullable(columns: list[str], filters: list[str]) -> str:
    """Returns a table with these columns of booleans or nulls."""
    return catalog(", ".join([ID, *(f"{it} boolean" for it in columns)]), filters)


def one_of_flags(count: int) -> str:
    """Returns filters for the rows in which one of this many booleans is true, and for the others."""
    some = " OR ".join(names(count, "f"))
    return nullable(names(count, "f"), [some, f"({some}) IS NOT TRUE"])


def first_flag(count: int) -> str:
    """Returns filters by the first of this many booleans that is true, and for the rows in which none is."""
    flags = names(count, "f")
    before = [" AND ".join(["TRUE", *(f"{it} IS NOT TRUE" for it in flags[:at])]) for at in range(count + 1)]
    return nullable(flags, [*(f"{others} AND {it} IS TRUE" for it, others in zip(flags, before)), before[-1]])


def nullable_pairs(count: int) -> str:
    """Returns filters for the rows in which both of one of this many pairs are true, and for the others."""
    some = " OR ".join(f"a{at} AND b{at}" for at in range(count))
    return nullable(names(count, "ab"), [some, f"({some}) IS NOT TRUE"])


def many_nodes() -> Iterator[Case | Sized]:
    """Yields tables whose certificates grow exponentially with the number of columns, up to the limit of a million
    nodes."""
    # If none is true, each of n columns is false or null: 2^n leaves, and one more for each split at which a column is
    # true.
    for count in (2, 8, 16, 18):
        yield Sized(f"nodes for one of {count} columns or none", one_of_flags(count), 3 * 2**count - 2, 3 * 2**count - 1)
        yield Sized(f"nodes for the first of {count} columns", first_flag(count), 3 * 2**count - 2, 3 * 2**count - 1)
    # A pair is not true in four ways: the first is false or null, or the first is true and the second is false or null.
    for count in (2, 4, 8, 9):
        yield Sized(f"nodes for {count} pairs with nulls", nullable_pairs(count), 2 * 4**count - 1, 2 * 4**count)
    for name, text in [("one of 19", one_of_flags(19)), ("first of 19", first_flag(19)), ("10 pairs", nullable_pairs(10))]:
        yield Case(f"make of a table past the limit: {name}", ("make",), text, 1, "too large public.t\n", LONG_SECONDS)


def listed() -> Iterator[tuple[str, str, list[str], bool]]:
    """Yields each sharding's name, columns and filters, and whether it is sound."""
    for key in KEYS:
        for count in COUNTS:
            for falls in (False, True):
                for by in (0, -1, 1):
                    yield f"{count} ranges of {key}, {falls}, {by}", key, ranges(count, by, falls), by == 0
            for has_negative in (True, False):
                filters = remainders(count, has_negative)
                yield f"{count} remainders of {key}, {has_negative}", key, filters, has_negative
    for count in (2, 8, 32):
        for columns, others, sound in [
            (REGION, "IS NOT TRUE", True), (REGION, "IS FALSE", False), (NOT_NULL_REGION, "IS FALSE", True),
            (NOT_NULL_REGION, "IS TRUE", False),
        ]:
            yield f"{count} regions of {columns}, {others}", columns, regions(count, others), sound
        for size in (1, 3, 10, 100):
            filters = region_lists(count, size, "OR region IS NULL")
            yield f"{count} lists of {size} regions", REGION, filters, True
            yield f"{count} lists of {size} regions without nulls", REGION, region_lists(count, size, ""), False
    for count, size in [(2, 2), (3, 2), (8, 3), (32, 3)]:
        for left_out in (0, 1):
            yield f"{count} lists of {size} keys, {left_out}", ID, key_lists(count, size, left_out), left_out == 0
    for count in (3, 8, 32):
        for by in (0, -1, 1):
            yield f"{count} ranges by BETWEEN, {by}", ID, betweens(count, by), by == 0
    for places, count in [(2, 2), (4, 2), (4, 8), (8, 4)]:
        for by in (0, 1):
            yield f"{places} regions in {count} ranges, {by}", REGION, regions_in_ranges(places, count, by), by == 0
    for count in (1, 4, 16):
        for others, sound in [("IS NOT TRUE", True), ("IS FALSE", False), ("IS NOT FALSE", False)]:
            yield f"truth values in {count} ranges, {others}", PAID, flags(count, others), sound


def cases() -> Iterator[Case | Made | Sized]:
    """Yields a run of make for each, and one of check if there should be a certificate."""
    for name, columns, filters, sound in listed():
        text = catalog(columns, filters)
        if sound:
            yield Made(f"make of {name}", text)
        else:
            yield Case(f"make of {name}", ("make",), text, 1, Outline("counter public.t ("))
    # A certificate for n pairs has at least 6 * 2^n - 5 nodes; for 12 pairs this is so many that splits are no longer
    # chosen carefully.
    for count, fewest in [(1, 7), (4, 91), (12, 24_571)]:
        yield Sized(f"nodes for {count} pairs", catalog(*pairs(count)), fewest, 2 * fewest + 2)
    yield Sized("nodes for 32 ranges", catalog(ID, ranges(32)), 1, 2_000)
    yield Sized("nodes for 8 regions in 4 ranges", catalog(REGION, regions_in_ranges(8, 4, 0)), 1, 2_000)
    yield from many_nodes()
