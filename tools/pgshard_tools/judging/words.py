"""Writes ranges of codes as conditions in SQL, over the server's own columns."""

from pgshard_tools.judging import ranges
from pgshard_tools.judging.codings import Coding, Labels, Ranks, Remainders, Signs, Truths
from pgshard_tools.judging.parser import is_alone, parsed, shown
from pgshard_tools.judging.ranges import Ranges
from pgshard_tools.judging.server_types import collation_sql

MOST_REMAINDERS = 16
SIGNS = {((-1, -1),): "<", ((0, 0),): "=", ((1, 1),): ">", ((-1, 0),): "<=", ((0, 1),): ">=",
         ((-1, -1), (1, 1)): "<>"}


def words_of(coded: Coding, found: Ranges, with_null: bool) -> str:
    """Returns when a column has one of some codes, or is NULL, if that is included; '' if that is so for each row."""
    if not found:
        return null_words(coded) if with_null else "FALSE"
    if found == coded.full:
        return "" if with_null or coded.not_null else not_null_words(coded)
    texts = range_words(coded, found)
    if with_null and not coded.not_null:
        texts.append(null_words(coded))
    return texts[0] if len(texts) == 1 else f"({' OR '.join(texts)})"


def null_words(coded: Coding) -> str:
    if coded.subject.sides:
        return f"({' OR '.join(f'{it} IS NULL' for it in coded.subject.sides)})"
    return f"{shown(coded.subject.sql)} IS NULL"


def not_null_words(coded: Coding) -> str:
    return " AND ".join(f"{it} IS NOT NULL" for it in coded.subject.sides) or f"{shown(coded.subject.sql)} IS NOT NULL"


def range_words(coded: Coding, found: Ranges) -> list[str]:
    """Returns conditions, one of which holds exactly if the code is in the ranges."""
    subject = shown(coded.subject.sql)
    if coded.subject.type == "bpchar" and has_blanks(coded):
        # As a char, the constant has no trailing blanks.
        subject = f"{alone(subject)}::text"
    collation = coded.subject.collation
    if isinstance(coded, Ranks) and collation is not None and collation != coded.subject.own_collation:
        subject = f"{alone(subject)} COLLATE {collation_sql(collation)}"
    match coded:
        case Truths():
            return [subject if found == ((1, 1),) else f"NOT ({subject})"]
        case Signs():
            return [f"{coded.subject.sides[0]} {SIGNS[found]} {coded.subject.sides[1]}{coded.subject.order}"]
        case Labels():
            return [label_words(coded, subject, found)]
        case Remainders():
            return remainder_words(coded, f"{subject} % {coded.modulus}", found)
    return joined(coded, subject, found)


def alone(text: str) -> str:
    """Returns an expression that can precede an operator with a higher precedence than its own."""
    return text if is_alone(parsed(text)) else f"({text})"


def has_blanks(coded: Coding) -> bool:
    """Returns whether a column is compared as text with a constant that ends with a blank."""
    constants = coded.words if isinstance(coded, Labels) else coded.constants if isinstance(coded, Ranks) else []
    return any(str(it).endswith(" ") for it in constants)


def label_words(coded: Labels, subject: str, found: Ranges) -> str:
    """Returns a list of the constants, or of those that are excluded."""
    rest = ranges.complement(found, coded.low, coded.high)
    is_other = found[-1][1] == coded.high
    listed = [coded.constant(it) for it in ranges.numbers_of(rest if is_other else found)]
    if len(listed) == 1:
        return f"{subject} {'<>' if is_other else '='} {listed[0]}"
    return f"{subject} {'NOT IN' if is_other else 'IN'} ({', '.join(listed)})"


def remainder_words(coded: Remainders, subject: str, found: Ranges) -> list[str]:
    """Returns a few remainders one by one."""
    if ranges.size(found) > MOST_REMAINDERS:
        return joined(coded, subject, found)
    listed = [str(it) for it in ranges.numbers_of(found)]
    return [f"{subject} = {listed[0]}" if len(listed) == 1 else f"{subject} IN ({', '.join(listed)})"]


def joined(coded: Coding, subject: str, found: Ranges) -> list[str]:
    """Returns the ranges one after the other, with single values as one list; or what is excluded, if that is
    shorter."""
    rest = ranges.complement(found, coded.low, coded.high)
    if len(rest) < len(found) and all(is_single(coded, *it) for it in rest):
        listed = [coded.constant(low) for low, _ in rest]
        if is_listed_apart(coded):
            return [" AND ".join(f"{subject} <> {it}" for it in listed)]
        return [f"{subject} <> {listed[0]}" if len(listed) == 1 else f"{subject} NOT IN ({', '.join(listed)})"]
    singles = [coded.constant(low) for low, high in found if is_single(coded, low, high)]
    texts = [one_range(coded, subject, low, high) for low, high in found if not is_single(coded, low, high)]
    if singles and is_listed_apart(coded):
        texts += [f"{subject} = {it}" for it in singles]
    elif singles:
        texts.append(f"{subject} = {singles[0]}" if len(singles) == 1 else f"{subject} IN ({', '.join(singles)})")
    return texts


def is_listed_apart(coded: Coding) -> bool:
    """Returns whether the values of a list are compared one by one. The server converts the numbers of a list to real
    if the column is real, and compares a single number as double precision ("10.5. UNION, CASE, and Related
    Constructs")."""
    return coded.subject.type == "float4"


def is_single(coded: Coding, low: int, high: int) -> bool:
    """Returns whether a range is a single value that can be named."""
    return low == high and (not isinstance(coded, Ranks) or low in coded.codes)


def one_range(coded: Coding, subject: str, low: int, high: int) -> str:
    """Returns a range by its ends, if it has them."""
    if isinstance(coded, Ranks):
        lower = None if low == coded.low else rank_bound(coded, subject, low, ">")
        upper = None if high == coded.high else rank_bound(coded, subject, high, "<")
        return " AND ".join(it for it in (lower, upper) if it)
    if low == coded.low:
        return f"{subject} < {coded.constant(high + 1)}"
    if high == coded.high:
        return f"{subject} >= {coded.constant(low)}"
    if coded.printed_type in ("smallint", "integer"):
        return f"{subject} BETWEEN {coded.constant(low)} AND {coded.constant(high)}"
    return f"{subject} >= {coded.constant(low)} AND {subject} < {coded.constant(high + 1)}"


def rank_bound(coded: Ranks, subject: str, code: int, sign: str) -> str:
    """Returns an end of a range: the constant itself, or the one before or after the gap between two."""
    if code in coded.codes:
        return f"{subject} {sign}= {coded.constant(code)}"
    return f"{subject} {sign} {coded.constant(code - 1 if sign == '>' else code + 1)}"
