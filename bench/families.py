"""Families of shardings that operators write, each as a catalog and as the same question for an SMT solver.

A condition is a tuple: ("cmp", term, operator, literal), ("in", term, literals), ("between", term, low, high), ("null",
column), ("and", ..), ("or", ..), ("not", condition) or ("is true", condition). A term is a column's name, or a pair of
a column's name and a divisor for a remainder.
"""

from dataclasses import dataclass

RANGES = {"smallint": 15, "integer": 31, "bigint": 63}


@dataclass
class Column:
    name: str
    kind: str
    is_key: bool = False


@dataclass
class Sharding:
    """A table and, for each subscriber, the condition of its publication; None carries the whole table."""

    columns: list
    conditions: list


def one_of(conditions):
    """OR of conditions, or the only one."""
    return conditions[0] if len(conditions) == 1 else ("or", *conditions)


# ---- the families


def ranges(count, kind="integer"):
    """Ranges of an integer key, the first and the last one open."""
    step = 100
    shards = [("cmp", "id", "<", step)]
    shards += [("and", ("cmp", "id", ">=", step * at), ("cmp", "id", "<", step * (at + 1))) for at in range(1, count - 1)]
    shards += [("cmp", "id", ">=", step * (count - 1))]
    return Sharding([Column("id", kind, True), Column("note", "text")], shards)


def remainders(count, kind="bigint"):
    """Remainders of an integer key, the negative ones with the positive ones."""
    term = ("id", count)
    shards = [("cmp", term, "=", 0)]
    shards += [("or", ("cmp", term, "=", at), ("cmp", term, "=", -at)) for at in range(1, count)]
    return Sharding([Column("id", kind, True)], shards)


def text_lists(count):
    """Two regions for each subscriber but the last, which has the others and those without a region."""
    lists = [one_of([("cmp", "region", "=", f"r{2 * at}"), ("cmp", "region", "=", f"r{2 * at + 1}")]) for at in range(count - 1)]
    last = ("or", ("null", "region"), ("not", one_of(lists)))
    return Sharding([Column("id", "integer", True), Column("region", "text")], lists + [last])


def regions_and_ranges(count):
    """A key of a region and a number: one half of the subscribers has one region, the other half the others."""
    half = max(count // 2, 1)
    bounds = [("cmp", "id", "<", 1000)] if half > 1 else []
    bounds += [("and", ("cmp", "id", ">=", 1000 * at), ("cmp", "id", "<", 1000 * (at + 1))) for at in range(1, half - 1)]
    bounds += [("cmp", "id", ">=", 1000 * (half - 1))] if half > 1 else []
    region = ("cmp", "region", "=", "eu")
    sides = [region, ("not", region)]
    shards = [("and", side, bound) for side in sides for bound in bounds] if bounds else sides
    return Sharding([Column("region", "text", True), Column("id", "bigint", True)], shards)


def flags(count):
    """The truth values of three nullable columns, split among up to 32 subscribers by ranges of the key."""
    paid = ("is true", ("cmp", "paid", "=", True))
    half = max(count // 2, 1)
    whole = ranges(half).conditions if half > 1 else [None]
    sides = [paid, ("not", paid)]
    shards = [side if bound is None else ("and", bound, side) for bound in whole for side in sides]
    return Sharding([Column("id", "integer", True), Column("paid", "boolean")], shards)


def hole(count):
    """Ranges that leave out one number."""
    sharding = ranges(count)
    sharding.conditions[-1] = ("cmp", "id", ">", 100 * (count - 1))
    return sharding


def overlap(count):
    """Ranges, two of which share one number."""
    sharding = ranges(count)
    sharding.conditions[0] = ("cmp", "id", "<=", 100)
    return sharding


def no_negative(count):
    """Remainders without the negative ones."""
    shards = [("cmp", ("id", count), "=", at) for at in range(count)]
    return Sharding([Column("id", "integer", True)], shards)


def forgotten_null(count):
    """Lists of texts that forget the rows without one."""
    sharding = text_lists(count)
    sharding.conditions[-1] = sharding.conditions[-1][2]
    return sharding


# ---- the families of lists and of BETWEEN, with this many entries in each list


def region_lists(count, entries):
    """A list of regions for each subscriber but the last, which has the others and those without a region."""
    lists = [("in", "region", [f"r{entries * at + more}" for more in range(entries)]) for at in range(count - 1)]
    last = ("or", ("not", one_of(lists)), ("null", "region"))
    return Sharding([Column("id", "integer", True), Column("region", "text")], lists + [last])


def key_lists(count, entries):
    """A list of keys for each subscriber but the last, which has the others. The lists interleave."""
    lists = [("in", "id", [7 * (count * more + at) for more in range(entries)]) for at in range(count - 1)]
    return Sharding([Column("id", "integer", True)], lists + [("not", one_of(lists))])


def remainder_lists(count, entries):
    """A list of remainders of an integer key for each subscriber but the last, which has the others and the negative
    ones."""
    term = ("id", count * entries)
    lists = [("in", term, [count * more + at for more in range(entries)]) for at in range(count - 1)]
    return Sharding([Column("id", "bigint", True)], lists + [("not", one_of(lists))])


def between(count, entries):
    """Ranges of this many keys by BETWEEN, and the other keys."""
    shards = [("between", "id", entries * at, entries * (at + 1) - 1) for at in range(count - 1)]
    return Sharding([Column("id", "integer", True)], shards + [("not", one_of(shards))])


def lists_and_between(count, entries):
    """Lists of regions, each split by BETWEEN of the key."""
    low = ("between", "id", -1000, 999)
    sides = region_lists(count // 2, entries).conditions if count > 3 else [None]
    shards = [bound if side is None else ("and", side, bound) for side in sides for bound in (low, ("not", low))]
    return Sharding([Column("id", "integer", True), Column("region", "text")], shards)


def shared_region(count, entries):
    """Lists of regions, where the last subscriber has one of the first's too."""
    sharding = region_lists(count, entries)
    first, *others = sharding.conditions[:-1]
    shorter = ("in", "region", first[2][1:])
    sharding.conditions[-1] = ("or", ("not", one_of([shorter, *others])), ("null", "region"))
    return sharding


FAMILIES = {it.__name__: it for it in (ranges, remainders, text_lists, regions_and_ranges, flags, hole, overlap, no_negative, forgotten_null)}
LISTS = {it.__name__: it for it in (region_lists, key_lists, remainder_lists, between, lists_and_between, shared_region)}


# ---- hard tables


def flags_of(names):
    return [Column("id", "integer", True), *(Column(it, "boolean") for it in names)]


def is_true(name):
    return ("is true", ("cmp", name, "=", True))


def some_flag(count):
    """Rows in which one of this many nullable flags is true, and the others."""
    names = [f"f{at}" for at in range(count)]
    some = one_of([("cmp", it, "=", True) for it in names])
    return Sharding(flags_of(names), [some, ("not", ("is true", some))])


def first_flag(count):
    """Rows by the first of this many nullable flags that is true, and those with none."""
    names = [f"f{at}" for at in range(count)]
    before = [[("not", is_true(it)) for it in names[:at]] for at in range(count)]
    firsts = [("and", *others, is_true(name)) if others else is_true(name) for name, others in zip(names, before)]
    return Sharding(flags_of(names), [*firsts, ("and", *(("not", is_true(it)) for it in names))])


def pair_of_flags(count):
    """Rows in which one of this many pairs of nullable flags is both true, and the others."""
    pairs = [("and", ("cmp", f"a{at}", "=", True), ("cmp", f"b{at}", "=", True)) for at in range(count)]
    names = [f"{letter}{at}" for at in range(count) for letter in "ab"]
    return Sharding(flags_of(names), [one_of(pairs), ("not", ("is true", one_of(pairs)))])


def sign_and_remainder(_):
    """Negative keys by their remainders, and the other keys, if it has to be known that a negative remainder is of a
    negative key."""
    odd = ("cmp", ("id", 2), "=", -1)
    even = ("and", ("cmp", "id", "<", 0), ("cmp", ("id", 2), "=", 0))
    return Sharding([Column("id", "integer", True)], [odd, even, ("cmp", "id", ">=", 0)])


def two_remainders(_):
    """Keys by two divisors, if it has to be known that each remainder 5 of 8 is a remainder 1 of 4."""
    quarter = ("cmp", ("id", 4), "=", 1)
    return Sharding([Column("id", "integer", True)], [("or", quarter, ("cmp", ("id", 8), "=", 5)), ("not", quarter)])


# Each with the sizes that are measured.
HARD = {
    some_flag: (8, 12, 16, 18, 19),
    first_flag: (8, 12, 16, 17, 19),
    pair_of_flags: (4, 6, 8, 9, 10),
    sign_and_remainder: (3,),
    two_remainders: (2,),
}


# ---- as a catalog


def literal_text(literal):
    if isinstance(literal, bool):
        return str(literal).upper()
    return f"'{literal}'" if isinstance(literal, str) else str(literal)


def term_text(term):
    return term if isinstance(term, str) else f"{term[0]} % {term[1]}"


def condition_text(condition):
    head, *parts = condition
    if head == "cmp":
        return f"{term_text(parts[0])} {parts[1]} {literal_text(parts[2])}"
    if head == "in":
        return f"{term_text(parts[0])} IN ({', '.join(map(literal_text, parts[1]))})"
    if head == "between":
        return f"{term_text(parts[0])} BETWEEN {parts[1]} AND {parts[2]}"
    if head == "null":
        return f"{parts[0]} IS NULL"
    if head == "not":
        return f"NOT ({condition_text(parts[0])})"
    if head == "is true":
        return f"({condition_text(parts[0])}) IS TRUE"
    return f" {head.upper()} ".join(f"({condition_text(it)})" for it in parts)


def catalog(sharding):
    """The sharding's catalog: a publication and a subscription for each condition."""
    columns = ", ".join(f"{it.name} {it.kind}" for it in sharding.columns)
    keys = ", ".join(it.name for it in sharding.columns if it.is_key)
    lines = [f"CREATE TABLE t ({columns}, PRIMARY KEY ({keys}));", "ALTER TABLE t REPLICA IDENTITY FULL;"]
    for at, condition in enumerate(sharding.conditions):
        where = "" if condition is None else f" WHERE ({condition_text(condition)})"
        lines += [f"CREATE PUBLICATION p{at} FOR TABLE t{where};", f"CREATE SUBSCRIPTION s{at} CONNECTION '' PUBLICATION p{at};"]
    return "\n".join(lines) + "\n"


# ---- as a question for an SMT solver: is there a valid row that passes none of the conditions, or two?


class Question:
    def __init__(self, sharding):
        self.texts = {}
        self.kinds = {it.name: it for it in sharding.columns}
        self.lines = [line for it in sharding.columns for line in self.declared(it)]
        passing = [self.says(it, True) if it else "true" for it in sharding.conditions]
        count = "(+ " + " ".join(f"(ite {it} 1 0)" for it in passing) + " 0)"
        self.lines += [f"(assert (not (= {count} 1)))", "(check-sat)"]

    def declared(self, column):
        sort = "Bool" if column.kind == "boolean" else "Int"
        yield f"(declare-const {column.name} {sort})"
        yield f"(declare-const {column.name}_null Bool)"
        if column.is_key:
            yield f"(assert (not {column.name}_null))"
        if column.kind in RANGES:
            high = 2 ** RANGES[column.kind]
            yield f"(assert (and (<= (- {high}) {column.name}) (< {column.name} {high})))"

    def literal(self, value):
        if isinstance(value, bool):
            return str(value).lower()
        if isinstance(value, str):
            return str(self.texts.setdefault(value, len(self.texts)))
        return str(value) if value >= 0 else f"(- {-value})"

    def term(self, term):
        if isinstance(term, str):
            return term
        column, divisor = term
        return f"(ite (>= {column} 0) (mod {column} {divisor}) (- (mod (- {column}) {divisor})))"

    def compared(self, term, operator, value):
        if operator == "<>":
            return f"(not (= {self.term(term)} {self.literal(value)}))"
        return f"({operator} {self.term(term)} {self.literal(value)})"

    def among(self, term, values):
        equal = " ".join(f"(= it {self.literal(value)})" for value in values)
        return f"(let ((it {self.term(term)})) (or {equal}))"

    def between(self, term, low, high):
        return f"(let ((it {self.term(term)})) (and (<= {self.literal(low)} it) (<= it {self.literal(high)})))"

    def says(self, condition, wanted):
        """That the condition is true, or that it is false; where it is null it is neither."""
        head, *parts = condition
        tests = {"cmp": self.compared, "in": self.among, "between": self.between}
        if head in tests:
            column = parts[0] if isinstance(parts[0], str) else parts[0][0]
            holds = tests[head](*parts)
            return f"(and (not {column}_null) {holds if wanted else f'(not {holds})'})"
        if head == "null":
            return f"{parts[0]}_null" if wanted else f"(not {parts[0]}_null)"
        if head == "not":
            return self.says(parts[0], not wanted)
        if head == "is true":
            said = self.says(parts[0], True)
            return said if wanted else f"(not {said})"
        word = head if wanted else {"and": "or", "or": "and"}[head]
        return f"({word} " + " ".join(self.says(it, wanted) for it in parts) + ")"


def question(sharding):
    return "\n".join(Question(sharding).lines) + "\n"
