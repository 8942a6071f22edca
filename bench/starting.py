"""What a run costs before it has anything to do: small inputs, and catalogs near the limits."""

import counting
import families
from measuring import print_table, shown

RUNS = 51
TABLES = 64
PUBLICATIONS = 64
SUBSCRIPTIONS = 32
COLUMNS = 100

LARGE_HEADS = [
    "Tables",
    "Bytes of the catalog",
    "eval of one row, ms",
    "make, ms",
    "check, ms",
    "Answer of check",
    "eval, instructions a byte",
]
SMALL = "CREATE TABLE t (id integer PRIMARY KEY);\n"


def column(at):
    """A name as long as a name may be."""
    return f"column_{at:03}_".ljust(63, "x")


def create_table(name):
    columns = [f"{column(at)} text" for at in range(1, COLUMNS - 1)]
    return f"CREATE TABLE {name} (id integer PRIMARY KEY, region text NOT NULL, {', '.join(columns)});"


def region_filters():
    """A region for each publication but the last, which has the others: 63 atoms."""
    named = [("cmp", "region", "=", f"r{at}") for at in range(PUBLICATIONS - 1)]
    return [families.condition_text(it) for it in [*named, ("not", ("or", *named))]]


def large_catalog(tables):
    """Tables, each split over all publications, two for each subscription."""
    names = [f"t{at}" for at in range(tables)]
    lines = [line for it in names for line in (create_table(it), f"ALTER TABLE {it} REPLICA IDENTITY FULL;")]
    for at, condition in enumerate(region_filters()):
        entries = ", ".join(f"{it} WHERE ({condition})" for it in names)
        lines.append(f"CREATE PUBLICATION p{at} FOR TABLE {entries};")
    share = PUBLICATIONS // SUBSCRIPTIONS
    for at in range(SUBSCRIPTIONS):
        taken = ", ".join(f"p{share * at + it}" for it in range(share))
        lines.append(f"CREATE SUBSCRIPTION s{at} CONNECTION '' PUBLICATION {taken};")
    return "\n".join(lines) + "\n"


def small_row(setup, words, path):
    named = ["pgshard" if it == setup.program else it for it in words]
    return [" ".join(named), shown(setup.milliseconds(words, path, RUNS))]


def measure_small(setup, folder):
    catalog, two_parts, sharded = folder / "catalog", folder / "two_parts", folder / "sharded"
    catalog.write_text(SMALL)
    two_parts.write_text(f"{SMALL}%%\n")
    text = f"{SMALL}CREATE PUBLICATION p FOR TABLE t;\nCREATE SUBSCRIPTION s CONNECTION '' PUBLICATION p;\n"
    sharded.write_text(f"{text}%%\no 0\n")
    runs = [
        (["true"], catalog),
        (["cat"], catalog),
        ([setup.program, "eval", "t"], two_parts),
        ([setup.program, "check"], sharded),
        ([setup.program, "make"], catalog),
    ]
    print_table(["Command", "ms"], (small_row(setup, words, path) for words, path in runs))


def large_rows(setup, folder):
    for tables in (1, 8, TABLES):
        catalog, with_row, certified = folder / "large", folder / "large_with_row", folder / "large_certified"
        text = large_catalog(tables)
        catalog.write_text(text)
        with_row.write_text(f"{text}%%\n(0, 'r0'{', NULL' * (COLUMNS - 2)})\n")
        certificates = setup.answer([setup.program, "make"], catalog)
        certified.write_text(f"{text}%%\n{certificates}")
        evaluated = setup.milliseconds([setup.program, "eval", "t0"], with_row)
        made = setup.milliseconds([setup.program, "make"], catalog)
        checked = setup.milliseconds([setup.program, "check"], certified)
        verdict = setup.answer([setup.program, "check"], certified).strip()
        each = counting.difference(counting.instructions([setup.program, "eval", "t0"], with_row), 0, len(text))
        yield [tables, f"{len(text):,}", *map(shown, (evaluated, made, checked)), verdict, shown(each)]


def measure_large(setup, folder):
    print_table(LARGE_HEADS, large_rows(setup, folder))
