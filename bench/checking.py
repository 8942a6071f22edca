"""`check` on certificates of up to 1,000,000 nodes, for 32 ranges of a key, for large filters and for the worst ones;
and on certificates of 64 tables, which fill an input.

A certificate of ranges tells them apart by halves, as `make` does. After 36 splits, where the first subscriber is found
or no value is left, it splits by further bounds that tell nothing new and only make nodes: as many as are wanted, in a
tree that is as flat as can be.

In the other catalogs the last subscriber has the whole table, and all others have a large filter that no row passes,
since it also asks for a remainder by 1 that is 1. Their certificates split by that atom, and then by those of the
filter.
"""

import itertools

import counting
import families
from measuring import print_table, shown

# A tree has 3 nodes more for each split.
SIZES = (1_000, 30_001, 1_000_000)
# Instructions are counted of certificates with fewer nodes.
MOST_COUNTED = 100_000
SUBSCRIBERS = 32
# Tables of a catalog, and how many bytes their certificates and it may have.
TABLES = 64
MOST_BYTES = 16_500_000
HEADS = ["Filters", "Leaves", "Nodes", "Splits on a path", "check, ms", "instructions per node", "Answer"]


def lower(at):
    """The number of the atom `id >= 100 * at`, for at above 0."""
    return 2 * at - 1


def upper(at):
    """The number of the atom `id < 100 * (at + 1)`, for at below the last."""
    return 2 * at


def split(atom, if_true, if_false):
    """A split by an atom that is never null."""
    return f"s {atom} {if_true} {if_false} n {atom}"


def nodes(tree):
    """The number of nodes: each has a letter and a number."""
    return len(tree.split()) // 2


def closed(atoms, tree):
    """The tree, where each of some atoms is found false; where one is true, no value is left."""
    for atom in atoms:
        tree = split(atom, "e 0", tree)
    return tree


def told_apart(first, after, spot, found, missing):
    """A tree for the rows of the subscribers from the first on and before the other, which halves them.

    `found` is put where the subscriber `spot` takes the rows, and `missing` where no value is left between the first two."""
    if after - first == 1:
        return found if first == spot else f"o {first}"
    middle = (first + after) // 2
    below = closed(map(lower, range(middle, after)), told_apart(first, middle, spot, found, missing))
    above = closed(map(upper, range(first, middle - 1)), told_apart(middle, after, spot, found, missing))
    return split(upper(middle - 1), below, split(lower(middle), above, missing if middle == 1 else "e 0"))


def bounds_on_path(spot):
    """The atoms by which that tree splits on the way to a subscriber."""
    first, after, atoms = 0, SUBSCRIBERS, set()
    while after - first > 1:
        middle = (first + after) // 2
        atoms.add(upper(middle - 1))
        if spot < middle:
            atoms |= {lower(at) for at in range(middle, after)}
            after = middle
        else:
            atoms |= {lower(middle), *(upper(at) for at in range(first, middle - 1))}
            first = middle
    return atoms


def filled(count, atoms, leaf):
    """A tree of this many nodes, which splits by these atoms, with one kind of leaf."""
    if count < 4:
        return leaf
    splits = (count - 4) // 3
    branches = [filled(1 + 3 * ((splits + rest) // 3), atoms[1:], leaf) for rest in range(3)]
    return f"s {atoms[0]} " + " ".join(branches)


def tree_of(count, spot, leaf):
    """The tree whose further nodes are put where a subscriber takes the rows, or for a leaf `e` where no value is
    left."""
    further = sorted(set(range(2 * SUBSCRIBERS - 2)) - bounds_on_path(spot))
    tree = filled(count, further, leaf)
    return told_apart(0, SUBSCRIBERS, spot, f"o {spot}", tree) if leaf == "e 0" else told_apart(0, SUBSCRIBERS, spot, tree, "e 0")


LAST = SUBSCRIBERS - 1
KINDS = {"o 0": (0, "o 0"), f"o {LAST}": (LAST, f"o {LAST}"), "e 0": (0, "e 0")}


def certificate(kind, size):
    """The certificate of this many nodes for ranges."""
    return tree_of(size - nodes(tree_of(1, *KINDS[kind])) + 1, *KINDS[kind])


def repeated(sharding, times):
    """The sharding, each of whose conditions is joined by AND with itself this many times."""
    parts = [it[1:] if it[0] == "and" else (it,) for it in sharding.conditions]
    return families.Sharding(sharding.columns, [("and", *(part * times)) for part in parts])


def whole_and_others(others, atoms, column):
    """A catalog in which this many subscriptions share a publication with these atoms in its filter. No row passes."""
    condition = ("and", ("or", *atoms), ("cmp", ("id", 1), "=", 1))
    lines = [
        f"CREATE TABLE t (id integer, {column}, PRIMARY KEY (id));",
        "ALTER TABLE t REPLICA IDENTITY FULL;",
        f"CREATE PUBLICATION p0 FOR TABLE t WHERE ({families.condition_text(condition)});",
        "CREATE PUBLICATION p1 FOR TABLE t;",
    ]
    lines += [f"CREATE SUBSCRIPTION s{at} CONNECTION '' PUBLICATION p{1 if at == others else 0};" for at in range(others + 1)]
    return "\n".join(lines) + "\n"


def beside_whole(size, owner, atoms, remainder_term):
    """The certificate of this many nodes if the last subscriber has the whole table; the atoms are numbered first."""
    tree = filled(size - 3, list(range(atoms)), f"o {owner}")
    return f"s {atoms} e {remainder_term} {tree} n {atoms}"


def by_lists(size):
    """The certificate of this many nodes where each subscriber but the last has a list of keys. No key is in two lists,
    and
    the further nodes are where one would be in the first two."""
    def tree_with(further):
        tree = f"o {LAST}"
        for at in reversed(range(1, LAST)):
            tree = split(at, closed(range(at + 1, LAST), f"o {at}"), tree)
        return split(0, split(1, further, closed(range(2, LAST), "o 0")), tree)

    return tree_with(filled(size - nodes(tree_with("e 0")) + 1, list(range(2, LAST)), "e 0"))


def of_no_list(size, counts, conditions, column):
    """A catalog whose first subscription has these lists, and the certificate of this many nodes whose leaves say that
    the lists' term has no value left. After some splits that show it, others follow that show nothing."""
    splits, further = counts
    lines = [
        f"CREATE TABLE t (n bigint PRIMARY KEY, {column});",
        "ALTER TABLE t REPLICA IDENTITY FULL;",
        *[f"CREATE PUBLICATION p{at} FOR TABLE t WHERE ({it});" for at, it in enumerate(conditions)],
        *[f"CREATE SUBSCRIPTION s{at} CONNECTION '' PUBLICATION p{at};" for at in range(2)],
    ]
    return "\n".join(lines) + "\n", filled(size - 3 * splits - 3, further, "e 0")


def below_lists(size):
    """50 lists of 100 remainders, which are all that there are: leaves where the remainder is in none of them."""
    lists = [", ".join(str(-2_500 + 100 * at + more) for more in range(100)) for at in range(50)]
    numbers = " OR ".join(f"n = {at}" for at in range(13))
    conditions = [" OR ".join(f"n % 2500 IN ({it})" for it in lists), f"({numbers}) AND n % 1 = 1"]
    catalog, tree = of_no_list(size, (50, list(range(50, 63))), conditions, "note text")
    for at in reversed(range(50)):
        tree = f"s {at} o 0 {tree} n {at}"
    return catalog, f"s 63 e 2 {tree} n 63"


def in_two_lists(size):
    """59 lists of 100 texts of 2,005 bytes: leaves where a text of the first is in neither of two that have its
    halves."""
    rows = [[100 * at + more for more in range(100)] for at in range(59)]
    rows[1][:50], rows[2][:50] = rows[0][:50], rows[0][50:]
    lists = [", ".join(f"'{'x' * 2_000}{text:05}'" for text in row) for row in rows]
    conditions = ["(" + " OR ".join(f"region IN ({it})" for it in lists) + ") AND n % 1 = 1", "n = n"]
    catalog, tree = of_no_list(size, (3, list(range(3, 16))), conditions, "region text NOT NULL")
    tree = f"s 0 s 1 o 1 s 2 o 1 {tree} n 2 n 1 o 1 n 0"
    return catalog.replace(" WHERE (n = n)", ""), f"s 59 e 1 {tree} n 59"


def of_tables(kind):
    """A catalog of tables that are split by ranges alike, and certificates that nearly fill an input."""
    names = [f"t{at}" for at in range(TABLES)]
    lines = [f"CREATE TABLE {it} (id integer PRIMARY KEY);" for it in names]
    for at, condition in enumerate(families.ranges(SUBSCRIBERS).conditions):
        entries = ", ".join(f"{it} WHERE ({families.condition_text(condition)})" for it in names)
        lines.append(f"CREATE PUBLICATION p{at} FOR TABLE {entries};")
        lines.append(f"CREATE SUBSCRIPTION s{at} CONNECTION '' PUBLICATION p{at};")
    catalog = "\n".join(lines) + "\n"
    tried = SIZES[1]
    splits = (MOST_BYTES - len(catalog)) // TABLES * tried // len(certificate(kind, tried)) // 3
    return catalog, "\n".join([certificate(kind, 1 + 3 * splits)] * TABLES)


FLAGS = 12


def repeated_flag():
    """OR of flags, the last of them 470 times: what is known changes for it at each leaf."""
    return " OR ".join(["f0"] * 8 + [f"f{FLAGS - 1}"] * 470)


def nested_flags(flags):
    """OR of conditions in which these flags are nested by AND and OR, as deep as a filter may be."""
    parts = []
    for start in range(0, 420, 62):
        part = flags[start % len(flags)]
        for at in range(60):
            part = f"({flags[(start + at + 1) % len(flags)]} {'OR' if at % 2 else 'AND'} {part})"
        parts.append(f"({flags[-1]} AND {part})")
    return " OR ".join(parts)


def threes_of_flags():
    """OR of many conditions that need the last flag and two others."""
    pairs = list(itertools.combinations(range(FLAGS - 1), 2))
    needed = [f"(f{FLAGS - 1} AND f{one} AND f{other})" for one, other in pairs]
    return " OR ".join(needed + [f"(f{FLAGS - 1} AND NOT f{one} AND f{other})" for one, other in pairs[:40]])


def by_flags(condition, splits):
    """A catalog in which the first filter has this condition of flags, and the certificate in which each leaf is after
    splits by this many of the last flags."""
    columns = ", ".join(f"f{at} boolean" for at in range(FLAGS))
    numbered = " AND ".join(f"f{at}" for at in range(FLAGS))
    lines = [
        f"CREATE TABLE t (id integer PRIMARY KEY, {columns});",
        "ALTER TABLE t REPLICA IDENTITY FULL;",
        f"CREATE PUBLICATION p0 FOR TABLE t WHERE (({numbered} OR {condition}) AND id % 1 = 1);",
        "CREATE PUBLICATION p1 FOR TABLE t;",
        *[f"CREATE SUBSCRIPTION s{at} CONNECTION '' PUBLICATION p{at};" for at in range(2)],
    ]
    tree = filled((3 ** (splits + 1) - 1) // 2, list(range(FLAGS - splits, FLAGS)), "o 1")
    return "\n".join(lines) + "\n", f"s {FLAGS} e {FLAGS} {tree} n {FLAGS}"


FLAG_CONDITIONS = {
    "one of 12 flags 470 times": repeated_flag(),
    "3 flags nested by AND and OR": nested_flags([f"f{at}" for at in range(FLAGS - 3, FLAGS)]),
    "12 flags nested by AND and OR": nested_flags([f"f{at}" for at in range(FLAGS)]),
    "threes of 12 flags": threes_of_flags(),
}
BOUNDS = 61
KEYS = 100
TEXTS = 52
SHARED = [("cmp", "id", "<", 100 * (at % BOUNDS)) for at in range(239)]
LONG = [("cmp", "note", "=", "x" * 65_000 + f"{at:02}") for at in range(TEXTS)]


def cases():
    """What is measured: filters and leaves in words, a catalog, and a certificate."""
    sharding = families.ranges(SUBSCRIBERS)
    for words, family in [("ranges", sharding), ("ranges, each atom 8 times", repeated(sharding, 8))]:
        for kind in KINDS:
            for size in SIZES:
                yield words, kind, families.catalog(family), certificate(kind, size)
    for size in SIZES:
        catalog = whole_and_others(31, SHARED, "note text")
        yield "480 nodes that 31 share", "o 31", catalog, beside_whole(size, 31, BOUNDS, 1)
    for size in SIZES[1:]:
        yield f"lists of {KEYS} keys", "e 0", families.catalog(families.key_lists(SUBSCRIBERS, KEYS)), by_lists(size)
        yield "50 lists of remainders", "e 0", *below_lists(size)
        yield "59 lists of long texts", "e 0", *in_two_lists(size)
    for words, condition in FLAG_CONDITIONS.items():
        for splits in (9, FLAGS):
            yield words, "o 1", *by_flags(condition, splits)
    yield "52 texts of 65,002 bytes", "o 1", whole_and_others(1, LONG, "note text"), beside_whole(10_000, 1, TEXTS, 1)
    for kind in KINDS:
        yield f"ranges of {TABLES} tables", kind, *of_tables(kind)


def depth(tree):
    """The most splits on a path."""
    deepest, open_branches = 0, []
    for letter in tree.split()[::2]:
        while open_branches and open_branches[-1] == 0:
            open_branches.pop()
        if open_branches:
            open_branches[-1] -= 1
        if letter == "s":
            open_branches.append(3)
            deepest = max(deepest, len(open_branches))
    return deepest


def row(setup, folder, filters, kind, catalog, tree):
    path = folder / "certificate"
    path.write_text(f"{catalog}%%\n{tree}\n")
    words = [setup.program, "check"]
    taken, count = setup.milliseconds(words, path), nodes(tree)
    each = counting.difference(counting.instructions(words, path), 0, count) if count < MOST_COUNTED else None
    return [filters, kind, f"{count:,}", depth(tree), shown(taken), shown(each), setup.answer(words, path).strip()]


def measure(setup, folder):
    print_table(HEADS, (row(setup, folder, *case) for case in cases()))
