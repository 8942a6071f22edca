"""`make` and `check` on families of shardings, and z3 on the same questions."""

import shutil

import counting
import families
from measuring import print_table, shown

COUNTS = (2, 8, 16, 32)
ENTRIES = (3, 10, 100)
MOST = 32
# Runs that take longer, in ms, are not made again to count their instructions.
LONG = 300
# Seconds of a processor that z3 may take.
PATIENCE = 20
HEADS = ["Answer", "make, ms", "check, ms", "z3, ms", "z3 says", "make, instructions per node"]


def nodes(certificate):
    """The number of nodes: each begins with one letter."""
    return sum(word in ("s", "o", "e", "n") for word in certificate.split())


def z3_time(setup, folder, sharding):
    if not shutil.which("z3"):
        return None, "not installed"
    path = folder / "question.smt2"
    path.write_text(families.question(sharding))
    solution = setup.answer(["bash", "-c", f"ulimit -t {PATIENCE}; exec z3 {path}"], path).strip()
    return (setup.milliseconds(["z3", str(path)], path), solution) if solution else (None, "timeout")


def counted(words, path, milliseconds, count):
    """The instructions for each node of a certificate; None if it took long to make."""
    return counting.difference(counting.instructions(words, path), 0, count) if milliseconds < LONG else None


def row(setup, folder, sharding):
    text, certified = folder / "catalog", folder / "certified"
    text.write_text(families.catalog(sharding))
    words = [setup.program, "make"]
    made, answer = setup.milliseconds(words, text), setup.answer(words, text).strip()
    is_certificate = answer[:2] in ("s ", "o ", "e ", "n ")
    checked, said, each = None, answer, None
    if is_certificate:
        each = counted(words, text, made, nodes(answer))
        certified.write_text(f"{families.catalog(sharding)}%%\n{answer}\n")
        words = [setup.program, "check"]
        checked, verdict = setup.milliseconds(words, certified), setup.answer(words, certified).strip()
        said = f"{nodes(answer):,} nodes, {verdict}"
    solved, solution = z3_time(setup, folder, sharding)
    agrees = {"sat": not is_certificate, "unsat": not answer.startswith("counter")}.get(solution, True)
    return [said, *map(shown, (made, checked, solved)), solution if agrees else f"{solution}, which differs", shown(each)]


def measure(setup, folder):
    rows = ([name, count, *row(setup, folder, it(count))] for name, it in families.FAMILIES.items() for count in COUNTS)
    print_table(["Family", "Subscribers", *HEADS], rows)
    lists = ([name, entries, *row(setup, folder, it(MOST, entries))] for name, it in families.LISTS.items() for entries in ENTRIES)
    print_table(["Family", "Entries", *HEADS], lists)
    hard = ([it.__name__, size, *row(setup, folder, it(size))] for it, sizes in families.HARD.items() for size in sizes)
    print_table(["Hard tables", "Size", *HEADS], hard)
