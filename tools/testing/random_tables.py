#!/usr/bin/env python3
"""Compares `make` on small random tables with an exhaustive search based on what a certificate can express.

    tools/testing/random_tables.py [--program FILE] [--tables N] [--seed N]

Each table has up to three columns besides its key, and up to six atoms. A certificate exists exactly if each assignment
of values to the atoms has one owner, where assignments that a leaf of a certificate can show to be impossible are left
out; `make` has to find one then. Otherwise it has to print a row that no subscriber or several take, or `unknown`. For
`unknown`, a search over boundary values finds out whether there is such a row.

A filter is a tuple: ("!", f), ("&", f, g), ("|", f, g), ("true", f), ("false", f), ("unknown", f), or an atom: ("null",
column), ("cmp", column, divisor, operator, literal), ("in", column, divisor, literals), ("between", column, divisor,
low, high), ("distinct", column, divisor, literal). A divisor of 0 means the column itself.
"""

import argparse
import collections
import itertools
import math
import operator
import pathlib
import random
import re
import subprocess
import sys

ROOT = pathlib.Path(__file__).resolve().parent.parent.parent
BUILT = ROOT / "crates" / "publisher_main" / "out" / "publisher_main"
TABLES_OF_A_CATALOG = 32
SHARES = 4
MAX_DEPTH = 3
LIMITS = {"smallint": 2**15, "integer": 2**31, "bigint": 2**63}
COMPARED = {"=": operator.eq, "<>": operator.ne, "<": operator.lt, "<=": operator.le, ">": operator.gt, ">=": operator.ge}
TESTS = {"true": 1, "false": 0, "unknown": None}
OTHER = "other"


# ---- what filters evaluate to


def remainder(number, divisor):
    """Returns the remainder, which has the sign of the number."""
    rest = abs(number) % abs(divisor)
    return rest if number >= 0 else -rest


def negated(value):
    return None if value is None else 1 - value


def both(left, right):
    return 0 if 0 in (left, right) else None if None in (left, right) else 1


def said(atom, value):
    """Returns the value of the atom if its term has this value, which is not null."""
    kind, *_, last = atom
    if kind == "cmp":
        return int(COMPARED[atom[3]](value, last))
    if kind == "in":
        return int(value in last)
    if kind == "between":
        return int(atom[3] <= value <= last)
    return int(value != last)


def of_null(atom):
    return 1 if atom[0] in ("null", "distinct") else None


def in_row(atom, row):
    value = row[atom[1]]
    if value is None:
        return of_null(atom)
    if atom[0] == "null":
        return 0
    return said(atom, remainder(value, atom[2]) if atom[2] else value)


def meaning(filter, value_of):
    head, *parts = filter
    if head == "!":
        return negated(meaning(parts[0], value_of))
    if head == "&":
        return both(*(meaning(it, value_of) for it in parts))
    if head == "|":
        return negated(both(*(negated(meaning(it, value_of)) for it in parts)))
    if head in TESTS:
        return int(meaning(parts[0], value_of) == TESTS[head])
    return value_of(filter)


def owners(shares, value_of):
    return [number for number, it in enumerate(shares) if it is not None and meaning(it, value_of) == 1]


def atoms_of(filter):
    if filter[0] in ("!", "&", "|", *TESTS):
        return [atom for part in filter[1:] for atom in atoms_of(part)]
    return [filter]


def all_atoms(shares):
    return list(dict.fromkeys(atom for it in shares if it is not None for atom in atoms_of(it)))


# ---- the exhaustive search


def term_of(atom):
    return (atom[1], 0 if atom[0] == "null" else atom[2])


def named(atom):
    return {"null": (), "in": atom[-1], "between": atom[3:]}.get(atom[0], atom[-1:])


def values_of(columns, term, atoms):
    """Returns values that represent all values of the term."""
    column, divisor = term
    kind = columns[column][0]
    literals = {it for atom in atoms if atom[0] != "null" and term_of(atom) == term for it in named(atom)}
    if kind == "boolean":
        return {False, True}
    if kind == "text":
        return literals | {OTHER}
    low, high = -LIMITS[kind], LIMITS[kind] - 1
    if divisor:
        low, high = max(low, 1 - abs(divisor)), min(high, abs(divisor) - 1)
    return {low} | {it for literal in literals for it in (literal, literal + 1) if low <= it <= high}


def of_column(columns, column, atoms):
    """Yields the combinations of values that the atoms of the column may have, as far as a certificate can tell."""
    mine = [atom for atom in atoms if atom[1] == column]
    if not columns[column][1]:
        yield {atom: of_null(atom) for atom in mine}
    tests = [atom for atom in mine if atom[0] != "null"]
    sides = []
    for term in dict.fromkeys(map(term_of, tests)):
        of_term = [atom for atom in tests if term_of(atom) == term]
        sides.append({tuple((atom, said(atom, value)) for atom in of_term) for value in values_of(columns, term, atoms)})
    for side in itertools.product(*sides):
        yield {atom: 0 for atom in mine if atom[0] == "null"} | dict(itertools.chain(*side))


def has_certificate(columns, shares):
    atoms = all_atoms(shares)
    for parts in itertools.product(*(list(of_column(columns, it, atoms)) for it in range(len(columns)))):
        values = {atom: value for part in parts for atom, value in part.items()}
        if len(owners(shares, values.get)) != 1:
            return False
    return True


def tried_values(columns, column, atoms):
    kind, not_null = columns[column]
    terms = {term_of(atom) for atom in atoms if atom[0] != "null" and atom[1] == column} | {(column, 0)}
    tried = set().union(*(values_of(columns, term, atoms) for term in terms))
    if kind in LIMITS:
        far = min(60, math.lcm(*(abs(divisor) for _, divisor in terms if divisor)))
        limit = LIMITS[kind]
        tried = {it + more for it in tried | {0, limit - 1} for more in range(-far, far + 1) if -limit <= it + more < limit}
    return [*tried] if not_null else [*tried, None]


def fault_in_rows(columns, shares):
    """Returns a row of boundary values that no subscriber or several take, or None."""
    atoms = all_atoms(shares)
    for row in itertools.product(*(tried_values(columns, it, atoms) for it in range(len(columns)))):
        if len(owners(shares, lambda atom: in_row(atom, row))) != 1:
            return row
    return None


# ---- random tables


def random_literal(source, kind, divisor):
    if kind == "boolean":
        return source.random() < 0.5
    if kind == "text":
        return source.choice("abcd")
    if divisor:
        return source.randint(-abs(divisor) - 1, abs(divisor) + 1)
    if kind == "smallint" and source.random() < 0.15:
        return source.choice([-32769, -32768, -32767, 32767, 32768])
    return source.choice([-3, -2, -1, 0, 1, 2, 3, 5, 6, 7, 10, 100])


def random_atom(source, columns):
    column = source.randrange(len(columns))
    kind = columns[column][0]
    if source.random() < 0.12:
        return ("null", column)
    is_number = kind in LIMITS
    divisor = source.choice([1, 2, 3, 4, -3]) if is_number and source.random() < 0.35 else 0
    literals = [random_literal(source, kind, divisor) for _ in range(source.randint(1, 4))]
    form = source.random()
    if form < 0.4:
        return ("cmp", column, divisor, source.choice(list(COMPARED) if is_number else ["=", "<>"]), literals[0])
    if form < 0.65:
        return ("in", column, divisor, tuple(sorted(set(literals))))
    if form < 0.8 and is_number:
        return ("between", column, divisor, min(literals), max(literals))
    return ("distinct", column, divisor, literals[0])


def random_filter(source, atoms, depth):
    head = source.choice(["atom", "!", "&", "|", source.choice(list(TESTS))]) if depth else "atom"
    if head == "atom":
        return source.choice(atoms)
    return (head, *(random_filter(source, atoms, depth - 1) for _ in range(2 if head in "&|" else 1)))


def divided(source, atoms):
    """Returns shares that divide all rows, built as a tree of tests."""
    shares = [None] * source.randint(1, SHARES)

    def go(path, left, depth):
        if not left or depth == MAX_DEPTH or (path and source.random() < 0.25):
            number = source.randrange(len(shares))
            shares[number] = path if shares[number] is None else ("|", shares[number], path)
            return
        atom, *others = left
        sides = [("true", atom), ("false", atom), ("unknown", atom)]
        for side in sides if source.random() < 0.5 else [sides[0], ("!", sides[0])]:
            go(("&", path, side) if path else side, others, depth + 1)

    go((), source.sample(atoms, len(atoms)), 0)
    return shares


def random_table(source):
    columns = [(source.choice([*LIMITS, "boolean", "text", "text"]), source.random() < 0.4) for _ in range(source.randint(1, 3))]
    atoms = list({random_atom(source, columns) for _ in range(source.randint(1, 6))})
    if source.random() < 0.3:
        return columns, [random_filter(source, atoms, source.randint(1, 4)) for _ in range(source.randint(1, 3))]
    shares = divided(source, atoms)
    number = source.randrange(len(shares))
    if shares[number] and source.random() < 0.3:
        shares[number] = (source.choice("&|"), shares[number], source.choice(atoms))
    return columns, shares


# ---- the program


def literal_text(literal):
    if isinstance(literal, bool):
        return str(literal).upper()
    return f"'{literal}'" if isinstance(literal, str) else str(literal)


def text_of(filter):
    head, *parts = filter
    if head == "!":
        return f"NOT ({text_of(parts[0])})"
    if head in "&|":
        left, right = parts
        # A chain associates to the left, and needs no parentheses there.
        opened = text_of(left) if left[0] == head else f"({text_of(left)})"
        return f"{opened} {'AND' if head == '&' else 'OR'} ({text_of(right)})"
    if head in TESTS:
        return f"({text_of(parts[0])}) IS {head.upper()}"
    column, *rest = parts
    if head == "null":
        return f"c{column} IS NULL"
    divisor, *rest = rest
    term = f"c{column} % {divisor}" if divisor else f"c{column}"
    if head == "cmp":
        return f"{term} {rest[0]} {literal_text(rest[1])}"
    if head == "in":
        return f"{term} IN ({', '.join(map(literal_text, rest[0]))})"
    if head == "between":
        return f"{term} BETWEEN {rest[0]} AND {rest[1]}"
    return f"{term} IS DISTINCT FROM {literal_text(rest[0])}"


def catalog(tables):
    """Returns a catalog of the tables. Each subscriber takes its share of them through one publication."""
    lines = []
    for number, (columns, _) in enumerate(tables):
        declared = "".join(f", c{it} {kind}{' NOT NULL' if not_null else ''}" for it, (kind, not_null) in enumerate(columns))
        lines.append(f"CREATE TABLE t{number} (k integer PRIMARY KEY{declared});")
    for subscriber in range(SHARES):
        taken = [
            f"t{number} WHERE ({text_of(shares[subscriber])})"
            for number, (_, shares) in enumerate(tables)
            if subscriber < len(shares) and shares[subscriber] is not None
        ]
        carried = f" FOR TABLE {', '.join(taken)}" if taken else ""
        lines.append(f"CREATE PUBLICATION p{subscriber}{carried};")
        lines.append(f"CREATE SUBSCRIPTION s{subscriber} CONNECTION '' PUBLICATION p{subscriber};")
    return "\n".join(lines) + "\n"


def value_in(text):
    if text.startswith("'"):
        return text[1:-1]
    return {"NULL": None, "TRUE": True, "FALSE": False}[text] if text[0].isalpha() else int(text)


def verdict(columns, shares, line):
    """Returns what is wrong with the line for a table, or which kind of line it is if it is right."""
    is_sound = has_certificate(columns, shares)
    if line[:2] in ("s ", "o ", "e ", "n "):
        return "certificate" if is_sound else "WRONG: a certificate where there is none"
    if is_sound:
        return "WRONG: no certificate where there is one"
    counter = re.fullmatch(r"counter public\.t\d+ \((.*)\) owners (.*)", line)
    if counter:
        row = [value_in(it) for it in counter[1].split(", ")][1:]
        told = [] if counter[2] == "none" else [int(it[1:]) for it in counter[2].split(",")]
        is_right = told == owners(shares, lambda atom: in_row(atom, row)) and len(told) != 1
        return "counterexample" if is_right else "WRONG: a row with other owners, or one"
    if not line.startswith("unknown "):
        return "WRONG: another line"
    return "unknown, with a row that shows the fault" if fault_in_rows(columns, shares) else "unknown"


def lines_for(program, tables):
    ran = subprocess.run([program, "make"], input=catalog(tables), capture_output=True, text=True)
    lines = ran.stdout.splitlines()
    if len(lines) != len(tables):
        sys.exit(f"{len(lines)} lines for {len(tables)} tables: {ran.stderr or ran.stdout}\n{catalog(tables)}")
    return lines


def main():
    parser = argparse.ArgumentParser(description="`make` on small random tables.")
    parser.add_argument("--program", default=str(BUILT), help="the built program")
    parser.add_argument("--tables", type=int, default=10_000)
    parser.add_argument("--seed", type=int, default=1)
    given = parser.parse_args()
    source = random.Random(given.seed)
    tally = collections.Counter()
    for _ in range(0, given.tables, TABLES_OF_A_CATALOG):
        tables = [random_table(source) for _ in range(TABLES_OF_A_CATALOG)]
        for table, line in zip(tables, lines_for(given.program, tables)):
            found = verdict(*table, line)
            tally[found] += 1
            if found.startswith("WRONG"):
                print(f"{found}\n{line}\n{catalog([table])}")
    for found, count in tally.most_common():
        print(f"{count} {found}")
    sys.exit(any(it.startswith("WRONG") for it in tally))


if __name__ == "__main__":
    main()
