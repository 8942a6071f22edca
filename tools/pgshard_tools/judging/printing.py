"""Prints formulas over codings in the grammar that pgshard reads."""

from dataclasses import dataclass
from typing import Any, Iterator

from pgshard_tools.judging import ranges
from pgshard_tools.judging.codings import Coding
from pgshard_tools.judging.formulas import And, Const, Formula, Is, IsNull, Not, Or, Within
from pgshard_tools.judging.ranges import Ranges

LONGEST_LIST = 100


def name_text(name: str) -> str:
    return '"' + name.replace('"', '""') + '"'


def term_text(coded: Coding) -> str:
    name = name_text(coded.name)
    return f"{name} % {coded.modulus}" if coded.modulus else name


def text_of(part: Formula) -> str:
    """Returns a formula with all its parentheses."""
    match part:
        case Const():
            return "TRUE" if part.value else "FALSE"
        case Not():
            return f"NOT {in_parentheses(part.part)}"
        case And():
            return " AND ".join(in_parentheses(it) for it in part.parts)
        case Or():
            return " OR ".join(in_parentheses(it) for it in part.parts)
        case Is():
            return f"{in_parentheses(part.part)} IS {part.test}"
        case IsNull():
            return f"{name_text(part.subject.name)} IS NULL"
        case Within():
            return within_text(part.coded, part.ranges)
    raise TypeError(part)


def in_parentheses(part: Formula) -> str:
    text = text_of(part)
    return text if isinstance(part, Const) else f"({text})"


def within_text(coded: Coding, found: Ranges) -> str:
    """Returns whether a column's code is in some ranges, with as few conditions as possible; NULL if the column is."""
    if not found or found == coded.full:
        is_never = not found
        if coded.not_null:
            return "FALSE" if is_never else "TRUE"
        return never_text(coded) if is_never else f"NOT ({never_text(coded)})"
    parts, is_negated = conditions(coded, found)
    text = " OR ".join(it.text for it in parts)
    return f"NOT ({text})" if is_negated else text


@dataclass(frozen=True)
class Condition:
    """A comparison as it is printed, pgshard's condition in it, and the codes for which that condition is TRUE."""

    text: str
    atom: str
    coded: Any
    ranges: Ranges | None


def atoms_of(part: Formula) -> Iterator[Condition]:
    """Yields the conditions of a formula from the left, as pgshard counts them: each with its text and its meaning."""
    match part:
        case Not() | Is():
            yield from atoms_of(part.part)
        case And() | Or():
            for it in part.parts:
                yield from atoms_of(it)
        case IsNull():
            yield Condition("", text_of(part), part.subject, None)
        case Within():
            yield from atoms_within(part.coded, part.ranges)


def atoms_within(coded: Coding, found: Ranges) -> Iterator[Condition]:
    if found and found != coded.full:
        yield from conditions(coded, found)[0]
    elif not coded.not_null:
        text = never_text(coded).split(" AND ")[0]
        code = 1 if coded.printed_type == "boolean" else coded.low if coded.printed_type == "text" else 0
        yield Condition(text, text, coded, ((code, code),))


def conditions(coded: Coding, found: Ranges) -> tuple[list[Condition], bool]:
    """Returns conditions, one of which holds if the code is in the ranges; or, if the second result is true, none of
    which does."""
    rest = ranges.complement(found, coded.low, coded.high)
    if coded.printed_type == "boolean":
        term = term_text(coded)
        return [Condition(term, term, coded, ((1, 1),))], found == ((0, 0),)
    inside, outside = pieces(coded, found), pieces(coded, rest)
    if len(outside) < len(inside) or is_upper_half(coded, found) or has_last(coded, found):
        return outside, True
    return inside, False


def is_upper_half(coded: Coding, found: Ranges) -> bool:
    """x >= k is written NOT x < k, so that both are the same condition."""
    return len(found) == 1 and found[0][1] == coded.high and found[0][0] != found[0][1]


def has_last(coded: Coding, found: Ranges) -> bool:
    """The last code of a text represents all other texts, which cannot be listed."""
    return coded.printed_type == "text" and found[-1][1] == coded.high


def never_text(coded: Coding) -> str:
    """Returns FALSE, or NULL if the column is."""
    if coded.not_null:
        return "FALSE"
    term = term_text(coded)
    if coded.printed_type == "boolean":
        return f"{term} AND NOT {term}"
    value = coded.literal(coded.low) if coded.printed_type == "text" else "0"
    return f"{term} = {value} AND NOT {term} = {value}"


def pieces(coded: Coding, found: Ranges) -> list[Condition]:
    """Returns conditions, one of which holds if the code is in the ranges."""
    term = term_text(coded)
    singles: list[int] = []
    listed: list[Condition] = []
    for low, high in found:
        if coded.printed_type == "text" or high - low < 3 and can_name(coded, low) and can_name(coded, high):
            singles.extend(range(low, high + 1))
        elif low == coded.low:
            listed.append(condition(coded, f"{term} < {high + 1}", low, high))
        elif high == coded.high:
            atom = f"{term} < {low}"
            listed.append(Condition(f"NOT {atom}", atom, coded, ((coded.low, low - 1),)))
        else:
            listed.append(condition(coded, f"{term} BETWEEN {low} AND {high}", low, high))
    for begin in range(0, len(singles), LONGEST_LIST):
        part = singles[begin:begin + LONGEST_LIST]
        names = ", ".join(coded.literal(it) for it in part)
        text = f"{term} = {names}" if len(part) == 1 else f"{term} IN ({names})"
        listed.append(Condition(text, text, coded, ranges.of_numbers(part)))
    return listed


def condition(coded: Coding, text: str, low: int, high: int) -> Condition:
    return Condition(text, text, coded, ((low, high),))


def can_name(coded: Coding, code: int) -> bool:
    """Returns whether a code is a single value. Beyond the ends of a coding that is not tight, pgshard has other
    values, which count as the end. The least bigint cannot be written."""
    return (coded.is_tight or coded.low < code < coded.high) and code > -(2**63)
