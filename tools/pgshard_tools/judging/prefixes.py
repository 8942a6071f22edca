"""Prefixes of texts. Texts with the same prefix are consecutive in the order of their bytes, which is that of collation
C.

So each condition on a prefix is a range in that order, whatever the column's collation is.
"""

from dataclasses import replace

from pgshard_tools.judging.formulas import Compare, Formula, Subject, both, negation
from pgshard_tools.judging.operands import Derived, Operand, Ref, Value

BYTEWISE = {"C", "POSIX", "ucs_basic"}
TEXTS = ("text", "varchar")
LAST, SURROGATES = 0x10FFFF, (0xD800, 0xDFFF)


def subject_of(operand: Operand) -> Subject | None:
    """Returns a text column, or another text, in byte order."""
    if isinstance(operand, Ref) and operand.type in TEXTS and operand.subject.type in TEXTS:
        return replace(operand.subject, collation="C")
    return None


def starts(subject: Subject, prefix: str) -> Formula:
    """Returns whether a text begins with a prefix."""
    if not prefix:
        return negation(never(subject))
    end = next_text(prefix)
    from_here = negation(Compare(subject, "<", prefix))
    return from_here if end is None else both(from_here, Compare(subject, "<", end))


def never(subject: Subject) -> Formula:
    """Returns FALSE, or NULL if the text is: no text is before the empty one."""
    return Compare(subject, "<", "")


def next_text(prefix: str) -> str | None:
    """Returns the first text after all texts with a prefix, or None if there is none."""
    for end in range(len(prefix), 0, -1):
        letter = ord(prefix[end - 1])
        if letter < LAST:
            following = letter + 1 if letter + 1 != SURROGATES[0] else SURROGATES[1] + 1
            return prefix[:end - 1] + chr(following)
    return None


def is_known(text: str, is_utf8: bool) -> bool:
    """Returns whether byte order and character order agree near a text: always in UTF8, and in other encodings between
    ASCII characters."""
    return is_utf8 or all(ord(it) < 0x7F for it in text + (next_text(text) or ""))


def of_pattern(pattern: str) -> tuple[str, bool] | None:
    """Returns the fixed prefix of a LIKE pattern, and whether anything may follow; None for a pattern of another
    form."""
    found: list[str] = []
    at = 0
    while at < len(pattern):
        letter = pattern[at]
        if letter == "%":
            return ("".join(found), True) if not pattern[at:].strip("%") else None
        if letter == "_":
            return None
        if letter == "\\":
            at += 1
            if at == len(pattern):
                return None
        found.append(pattern[at])
        at += 1
    return "".join(found), False


def like(operand: Operand, pattern: str, is_utf8: bool) -> Formula | None:
    """Returns whether a text matches a LIKE pattern, if the pattern tests a prefix, or a single text."""
    subject, found = subject_of(operand), of_pattern(pattern)
    if subject is None or found is None or not is_known(found[0], is_utf8):
        return None
    text, is_open = found
    return starts(subject, text) if is_open else Compare(subject, "=", text)


def beginning(operand: Operand, length: int, ref: Ref, is_utf8: bool) -> Operand:
    """Reads the first characters of a text, at least one."""
    found = subject_of(operand)
    if found is None or length < 1:
        return ref
    subject: Subject = found

    def means(own: Ref, op: str, constant: Value) -> Formula | None:
        text = constant.value
        if not isinstance(text, str) or not is_known(text, is_utf8):
            return None
        if op == "=":
            return equal(subject, text, length)
        return None if own.subject.collation not in BYTEWISE else before(subject, op, text, length)

    return Derived(ref, means)


def equal(subject: Subject, text: str, length: int) -> Formula:
    """If the constant is shorter, the first characters are the whole text."""
    if len(text) > length:
        return never(subject)
    return starts(subject, text) if len(text) == length else Compare(subject, "=", text)


def before(subject: Subject, op: str, text: str, length: int) -> Formula:
    """Compares in byte order. If the first characters equal the constant, the rest of the text decides."""
    if len(text) > length or op == "<=" and len(text) == length:
        end = next_text(text[:length])
        return negation(never(subject)) if end is None else Compare(subject, "<", end)
    return Compare(subject, op, text)
