"""Certificates over IN, BETWEEN and IS DISTINCT FROM, with what `check` says of each, and what `make` finds."""

from collections.abc import Iterator

from .case import ACCEPTED, Case, Made, Outline, two_parts
from .families import catalog

ID = "id integer PRIMARY KEY"
REGION = f"{ID}, region text"

# One owner if the atom is true, another if it is false, and no rows for which it is null.
TWO_WAYS = "s 0 o 0 o 1 n 0"

# The remainders by 51 are the 101 numbers from -50 to 50.
HUNDRED = f"id % 51 IN ({', '.join(str(it) for it in range(-50, 50))})"

# Two regions, and the others with nulls; and what is true for all regions but one, and for null.
LISTED = ["region IN ('eu', 'us')", "region NOT IN ('us', 'eu') OR region IS NULL"]
ELSEWHERE = ["region IN ('eu', 'us')", "region IS DISTINCT FROM 'eu' OR region IS DISTINCT FROM 'us'"]
EXACTLY = ["ok IS NOT DISTINCT FROM TRUE", "ok IS NOT DISTINCT FROM FALSE"]
EXACTLY_PAID = [it.replace("ok", "paid") for it in EXACTLY]

# A boolean, with no rows for which it is neither true nor false; the same with nulls first.
TRUE_OR_FALSE = "s 0 s 1 e 0 o 1 n 1 s 1 o 0 e 0 n 1 n 0"
AFTER_NULLS = f"s 2 s 0 s 1 o 2 e 0 n 1 e 0 n 0 {TRUE_OR_FALSE} n 2"

# The columns, the filters of the subscribers, and certificates with their faults, which are empty if they are accepted.
FORMS: list[tuple[str, list[str], list[tuple[str, str]]]] = [
    (ID, ["id BETWEEN 1 AND 9", "id NOT BETWEEN 1 AND 9"], [
        (TWO_WAYS, ""), ("s 0 e 0 o 1 n 0", "NotEmpty public.t 1"), ("s 0 o 0 e 0 n 0", "NotEmpty public.t 2"),
        ("s 0 o 0 o 1 o 1", "NotOwner public.t 3"),
    ]),
    # No number is between a greater and a smaller number, and one number is between two equal ones.
    (ID, ["id BETWEEN 9 AND 8", "id NOT BETWEEN 9 AND 8"], [
        ("s 0 e 0 o 1 n 0", ""), ("s 0 o 0 e 0 n 0", "NotEmpty public.t 2"),
    ]),
    (ID, ["id BETWEEN 9 AND 9", "id NOT BETWEEN 9 AND 9"], [("s 0 e 0 o 1 n 0", "NotEmpty public.t 1")]),
    # A value of a nullable column is outside the range, or null.
    (f"{ID}, low smallint", ["low BETWEEN -32768 AND 9", "low NOT BETWEEN -32768 AND 9 OR low IS NULL"], [
        ("s 0 s 1 e 0 o 0 n 1 o 1 s 1 o 1 e 0 n 1", ""),
        ("s 0 s 1 e 0 o 0 n 1 o 1 n 0", "MayBeNull public.t 6"),
        ("s 0 s 1 e 0 o 0 n 1 e 0 n 0", "NotEmpty public.t 5"),
    ]),
    (REGION, LISTED, [
        ("s 0 s 1 e 0 o 0 n 1 o 1 s 1 o 1 e 0 n 1", ""),
        ("s 0 s 1 e 0 e 0 n 1 o 1 n 0", "NotEmpty public.t 3"),
        ("s 0 s 1 e 0 o 0 n 1 o 1 n 0", "MayBeNull public.t 6"),
        ("s 0 s 1 e 0 o 0 n 1 o 1 s 1 e 0 e 0 n 1", "NotEmpty public.t 7"),
    ]),
    (ID, [HUNDRED, f"NOT {HUNDRED}"], [(TWO_WAYS, ""), ("s 0 o 0 e 0 n 0", "NotEmpty public.t 2")]),
    (REGION, ["region IS DISTINCT FROM 'eu'", "region IS NOT DISTINCT FROM 'eu'"], [
        (TWO_WAYS, ""), ("s 0 e 0 o 1 n 0", "NotEmpty public.t 1"), ("s 0 o 0 e 0 n 0", "NotEmpty public.t 2"),
    ]),
    # No text is in the list and equal to neither of its texts.
    (REGION, ELSEWHERE, [
        ("s 0 s 1 e 0 e 0 n 1 e 0 e 0", "NotEmpty public.t 2"),
        ("s 0 s 1 s 2 e 0 e 0 n 2 e 0 n 1 e 0 e 0", "NotEmpty public.t 4"),
    ]),
    # A value that is distinct from both booleans is null. The column may be null, or it is not null by its declaration
    # or by what is known already.
    (f"{ID}, ok boolean NOT NULL", EXACTLY, [(TRUE_OR_FALSE, "")]),
    (f"{ID}, ok boolean", EXACTLY, [(TRUE_OR_FALSE, "NotEmpty public.t 2")]),
    (f"{ID}, ok boolean", [*EXACTLY, "ok IS NULL"], [(AFTER_NULLS, "")]),
]

SMALL_ID = "id smallint PRIMARY KEY"
PAID = f"{ID}, paid boolean"
COUNT = f"{ID}, n integer"

# Columns and filters of shardings in which each row has one owner.
DIVIDED: list[tuple[str, list[str]]] = [
    (f"{REGION} NOT NULL", ["region IN ('us', 'eu')", "region NOT IN ('eu', 'us')"]),
    (REGION, ["region IN ('us', 'eu', 'as')", "(region = 'as' OR region IN ('eu', 'us')) IS NOT TRUE"]),
    (ID, ["id BETWEEN 1 AND 9", "id < 1", "id > 9"]),
    (ID, ["id IN (1, 2, 3)", "(id BETWEEN 1 AND 3) IS NOT TRUE"]),
    (ID, ["id BETWEEN 9 AND 1 OR id BETWEEN 1 AND 5", "id < 1 OR id > 5"]),
    (SMALL_ID, ["id IN (32767, 40000)", "id < 32767"]),
    (SMALL_ID, ["id BETWEEN -40000 AND 0", "id BETWEEN 1 AND 40000", "id IN (40000)"]),
    (ID, ["id % 10 IN (0, 1, 2)", "id % 10 BETWEEN 3 AND 9", "id % 10 < 0"]),
    (PAID, ["paid IS DISTINCT FROM TRUE", "paid"]),
    (PAID, ["paid IS DISTINCT FROM TRUE AND paid IS DISTINCT FROM FALSE", "paid IS NOT NULL"]),
    (COUNT, [
        "n % 2 IS DISTINCT FROM 0 AND n % 2 IS DISTINCT FROM 1 AND n % 2 IS DISTINCT FROM -1", "n IN (5) OR n <> 5",
    ]),
    (COUNT, [
        "n IS DISTINCT FROM 5 AND n < 5", "n IS DISTINCT FROM 5 AND n > 5", "n IN (5) OR n IS NULL",
    ]),
]

# Columns and filters of shardings in which some row has no owner or two, and how the line that shows the row begins and
# ends.
NOT_DIVIDED: list[tuple[str, list[str], str, str]] = [
    (ID, ["id IN (5, 7)", "id IN (7, 9) OR id NOT IN (5, 7, 9)"], "(7) ", "owners s0,s1"),
    (ID, ["id BETWEEN 10 AND 20", "id BETWEEN 20 AND 30", "id NOT BETWEEN 10 AND 30"], "(20) ", "owners s0,s1"),
    (ID, ["id IN (1, 2, 3)", "id NOT IN (1, 2, 4)"], "(", ""),
    (SMALL_ID, ["id IN (-32768, 40000)", "id > -32767"], "(-32767) ", "owners none"),
    (ID, ["id % 10 IN (0, 1, 2)", "id % 10 BETWEEN 3 AND 8", "id % 10 < 0"], "(", "owners none"),
    (PAID, EXACTLY_PAID, "(0, NULL) ", "owners none"),
    (COUNT, ["n IS DISTINCT FROM 5", "n IN (4, 5)"], "(", "owners s0,s1"),
    ("id bigint PRIMARY KEY", ["id NOT IN (5, 7, 1000000007) OR id % 1009 <> 287"], "(1000000007) ", "owners none"),
]


def cases() -> Iterator[Case | Made]:
    """Yields a run of check for each certificate, and of make for each sharding."""
    for columns, filters, certificates in FORMS:
        for certificate, refusal in certificates:
            name = f"check of {certificate} for {filters[0][:40]}"
            text = two_parts(catalog(columns, filters), f"{certificate}\n")
            expected = (1, f"refused {refusal}\n") if refusal else (0, ACCEPTED)
            yield Case(name, ("check",), text, *expected)
    for columns, filters in DIVIDED:
        yield Made(f"make of {filters[0][:40]}, divided", catalog(columns, filters))
    for columns, filters, begin, end in NOT_DIVIDED:
        outline = Outline(f"counter public.t {begin}", f"{end}\n", lines=1)
        yield Case(f"make of {filters[0][:40]}, not divided", ("make",), catalog(columns, filters), 1, outline)
