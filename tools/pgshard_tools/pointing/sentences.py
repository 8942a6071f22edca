"""Sentences for the kinds of faults."""

from pgshard_tools.judging.kinds import KINDS

CERTIFICATES = {
    "BadToken": "this is not part of a certificate, which consists of letters s, o, e, n with a number after each",
    "Ended": "the certificate is incomplete",
    "Trailing": "there is text after the end of the certificate",
    "TooLarge": "the certificate has more than 1,000,000 nodes",
    "TooDeep": "the certificate has more than 64 splits on a path",
}

# How lines of `make` about a table without a certificate begin.
NO_CERTIFICATE = "counter ", "unknown ", "too large "
NOT_MADE = "this is not a certificate, but what make prints of a table that has none"

ROWS = {
    "Width": "the row does not have as many values as the table has columns",
    "NullInNotNull": "the value is null, and the column is NOT NULL",
    "WrongType": "the value does not have the type of the column",
    "OutOfRange": "the number is out of range for the column's type",
}

NODES = {
    "BadIndex": "there is no such atom, term or subscriber",
    "NotEmpty": "the certificate says that there is no row here, but the term may have a value",
    "MayBeNull": "the certificate says that there is no row here, but the atom may be null",
    "NotOwner": "the certificate names a subscriber that may not take the row",
    "SecondOwner": "the certificate names a subscriber, but another one may also take the row",
}

CLOSINGS = {
    "CountDiffers": "the number of commits in the log is not the number that was answered",
    "ReceiptMissing": "a commit in the log is not one that was answered",
    "ReadingWrong": "a reading differs from what the commits left",
    "TakenDiffers": "a connection took other commits than it was sent, or stops before the end of the log",
    "ConnectionMissing": "the result of a connection is missing",
    "StartLate": "a stream started after a commit that no client of its slot confirmed",
    "SlotDiffers": "a slot is confirmed past a commit that no client of the slot confirmed",
}

PARTS = {
    "eval": ["a catalog", "rows"],
    "show": ["a catalog"],
    "check": ["a catalog", "certificates"],
    "make": ["a catalog"],
    "simulate": ["a catalog", "certificates", "a script"],
    "serve": ["a catalog", "certificates", "a script"],
}
MAX_BYTES = 16_777_216


def of_text(kind: str, there: str) -> str:
    """Returns the sentence for a fault of a catalog, a script or a row, at a token."""
    return f"{KINDS.get(kind, kind)}: {there}"


def of_input(subcommand: str, data: bytes, parts: int) -> str:
    """Returns why an input cannot be read, as far as the input shows it."""
    if len(data) > MAX_BYTES:
        return "the input is longer than 16,777,216 bytes"
    try:
        data.decode()
    except UnicodeDecodeError as fault:
        return f"the input is not valid UTF-8, at byte {fault.start}"
    wanted = PARTS.get(subcommand, [])
    if not wanted or len(wanted) == parts:
        return "the input cannot be read"
    has = f"the input has {counted(parts, 'part')}"
    if len(wanted) == 1:
        return f"{subcommand} reads {wanted[0]} and nothing else; {has}, separated by lines %%"
    listed = " and ".join([", ".join(wanted[:-1]), wanted[-1]])
    return f"{subcommand} reads {listed}, from a file for each or with lines %% between them; {has}"


def counted(number: int, noun: str) -> str:
    """Returns the number with the noun, in the plural unless the number is 1."""
    return f"{number} {noun}" if number == 1 else f"{number} {noun}s"
