"""The worst known inputs of `eval`, each as long as an input may be, and the processor time that they take."""

import itertools

from measuring import print_table, processor_seconds, shown

# The longest input, in bytes.
MAX_INPUT = 16_777_216
HEADS = ["Filters", "Digits of a key", "eval, s", "eval --insert, s"]


def primes(least, count):
    """This many prime numbers from one on."""
    found = (it for it in itertools.count(least) if all(it % one for one in range(2, int(it**0.5) + 1)))
    return list(itertools.islice(found, count))


def remainder_lists(least):
    """Lists of 100 remainders, each by another prime."""
    lists = ((it, sorted({at * 37 % it for at in range(100)})) for it in primes(least, 60))
    return [f"k % {it} IN ({', '.join(map(str, entries))})" for it, entries in lists]


def halves(count):
    """Atoms that hold for half of the keys."""
    return [f"k % {it} < {it // 2}" for it in primes(3, count)]


def alternating(atoms, op="OR"):
    """A filter of all these atoms, below AND and OR by turns."""
    if len(atoms) == 1:
        return atoms[0]
    middle, other = len(atoms) // 2, "AND" if op == "OR" else "OR"
    return f"({alternating(atoms[:middle], other)} {op} {alternating(atoms[middle:], other)})"


def chosen(atoms, count, start=0):
    """This many of the atoms, some of them several times."""
    return [atoms[(start + at * 29) % len(atoms)] for at in range(count)]


KINDS = {
    "60 remainders": lambda: halves(60),
    "60 lists of 100 remainders": lambda: remainder_lists(211),
    "60 lists of 100 remainders by large numbers": lambda: remainder_lists(1_000_003),
    "one filter of 60 lists of remainders": lambda: [" OR ".join(remainder_lists(211))],
    "one filter of 500 atoms, 64 of them different": lambda: [alternating(chosen(halves(64), 500))],
    "60 filters of 8 atoms, 64 of them different": lambda: [alternating(chosen(halves(64), 8, at)) for at in range(60)],
}
RUNS = [(kind, digits) for kind in KINDS for digits in (4, 6)]


def text_of(conditions, digits):
    """A catalog with these filters, and as many keys of this many digits as fit."""
    publications = (f"CREATE PUBLICATION p{at} FOR TABLE t WHERE ({it});\n" for at, it in enumerate(conditions))
    head = "CREATE TABLE t (k bigint PRIMARY KEY);\n" + "".join(publications) + "%%\n"
    least, keys = 10 ** (digits - 1), 9 * 10 ** (digits - 1)
    number = (MAX_INPUT - len(head)) // (digits + 3)
    return head + "".join(f"({least + at * 387_563 % keys})\n" for at in range(number))


def taken(setup, words, path):
    with setup.pinned():
        return shown(processor_seconds(words, path, check=True))


def row(setup, path, kind, digits):
    path.write_text(text_of(KINDS[kind](), digits))
    words = [setup.program, "eval", "t"]
    return [kind, digits, *(taken(setup, it, path) for it in (words, [*words, "--insert"]))]


def measure(setup, folder):
    print_table(HEADS, (row(setup, folder / "input", kind, digits) for kind, digits in RUNS))
