"""Filters as people write them, and the text that catalog.sql should print of each, written by hand."""

from dataclasses import dataclass

# A column of each type that pgshard reads, of varchar, and columns whose names need quotes.
COLUMNS = """
    id bigint PRIMARY KEY,
    s smallint,
    i integer,
    b bigint,
    o boolean,
    t text,
    v varchar,
    w varchar(40),
    "Up" integer,
    "or" boolean,
    "'" text,
    "a ""b""::bigint" text,
    "é (s)::integer" smallint
"""


@dataclass
class Form:
    """A filter, its text in the catalog, and whether the server prints that text in the same way as the filter
    itself."""

    filter: str
    printed: str
    is_same: bool = True


def same(filter, printed):
    return Form(filter, printed)


def other(filter, printed):
    """A form that the server distinguishes from the printed one by types, though their values are the same."""
    return Form(filter, printed, is_same=False)


FORMS = [
    # Comparisons of integers, at and beyond the limits of each type.
    same("s = 5", "(s = 5)"),
    same("s = -5", "(s = -5)"),
    same("s < 32767", "(s < 32767)"),
    same("s > -32768", "(s > -32768)"),
    same("s <= 32768", "(s <= 32768)"),
    same("s <> 3000000000", "(s <> 3000000000)"),
    same("i = 5", "(i = 5)"),
    same("i <> -5", "(i <> -5)"),
    same("i < 2147483647", "(i < 2147483647)"),
    same("i > -2147483648", "(i > -2147483648)"),
    same("i <= 2147483648", "(i <= 2147483648)"),
    same("i >= -2147483649", "(i >= -2147483649)"),
    same("i = '5'", "(i = 5)"),
    same("i != '-5'", "(i <> -5)"),
    same("b = 5", "(b = 5)"),
    same("b = -5", "(b = -5)"),
    same("b > 3000000000", "(b > 3000000000)"),
    same("b < 9223372036854775807", "(b < 9223372036854775807)"),
    same("b > -9223372036854775807", "(b > -9223372036854775807)"),
    same("5 < i", "(5 < i)"),
    same("-5 >= b", "(-5 >= b)"),
    same("forms0.i = 5", "(i = 5)"),
    other("s = '5'", "(s = 5)"),
    other("s = '-32768'", "(s = -32768)"),
    other("s = 5::smallint", "(s = 5)"),
    other("s = 32767::smallint", "(s = 32767)"),
    other("s < (-5)::smallint", "(s < -5)"),
    other("s >= -5::smallint", "(s >= (- 5))"),
    other("s::integer = 5", "(s = 5)"),
    other("s::bigint = 5", "(s = 5)"),
    other("i = 5::smallint", "(i = 5)"),
    other("i = 5::bigint", "(i = 5)"),
    other("i::bigint = '-5'", "(i = -5)"),
    other("b = '5'", "(b = 5)"),
    other("b = 5::bigint", "(b = 5)"),
    # Remainders.
    same("s % 3 = 0", "((s % 3) = 0)"),
    same("s % -3 = -1", "((s % -3) = -1)"),
    same("s % 3000000000 = 5", "((s % 3000000000) = 5)"),
    same("i % 3 = 1", "((i % 3) = 1)"),
    same("i % -3 = -1", "((i % -3) = -1)"),
    same("i % 3000000000 = 5", "((i % 3000000000) = 5)"),
    same("i % -3000000000 <> 5", "((i % -3000000000) <> 5)"),
    same("i % -2147483648 < 0", "((i % -2147483648) < 0)"),
    same("i % -1 = 0", "((i % -1) = 0)"),
    same("(i % 3) IS NULL", "((i % 3) IS NULL)"),
    same("b % 3 = 1", "((b % 3) = 1)"),
    same("b % -3 = -1", "((b % -3) = -1)"),
    same("b % 3000000000 > 5", "((b % 3000000000) > 5)"),
    same("b % -3000000000 > 3000000000", "((b % -3000000000) > 3000000000)"),
    same("b % 9223372036854775807 = 0", "((b % 9223372036854775807) = 0)"),
    same("1 = b % 3", "(1 = (b % 3))"),
    other("s % 3::smallint = 0", "((s % 3) = 0)"),
    other("s % '3' = 0", "((s % 3) = 0)"),
    other("s % -3::smallint = -1", "((s % (- 3)) = -1)"),
    other("s % 3::bigint = 1", "((s % 3) = 1)"),
    other("i % 3::smallint = 1", "((i % 3) = 1)"),
    other("i % 3::bigint = 1", "((i % 3) = 1)"),
    other("b % 3::smallint = 1", "((b % 3) = 1)"),
    other("b % 3::smallint::integer = 1", "((b % 3) = 1)"),
    other("b % '3' = '1'", "((b % 3) = 1)"),
    # Truth values, logic and nulls.
    same("o", "o"),
    same("NOT o", "(NOT o)"),
    same("o = true", "(o = true)"),
    same("o <> false", "(o <> false)"),
    same("o = 'no'", "(o = false)"),
    same("true = o", "(true = o)"),
    same("o IS TRUE", "(o IS TRUE)"),
    same("o IS NOT FALSE", "(o IS NOT FALSE)"),
    same("o IS UNKNOWN", "(o IS UNKNOWN)"),
    same("o IS NOT UNKNOWN", "(o IS NOT UNKNOWN)"),
    same("o IS NULL", "(o IS NULL)"),
    same("i NOTNULL", "(i IS NOT NULL)"),
    same("true", "true"),
    same("NOT true", "(NOT true)"),
    same("i = 5 AND (b = 6 OR s = 7)", "((i = 5) AND ((b = 6) OR (s = 7)))"),
    same("i = 5 OR b < 6 AND NOT s = 7", "((i = 5) OR ((b < 6) AND (NOT (s = 7))))"),
    same("NOT (NOT (i = 5 AND b > 6))", "(NOT (NOT ((i = 5) AND (b > 6))))"),
    same("(i = 5) IS NULL", "((i = 5) IS NULL)"),
    same("(i < 5) IS NOT TRUE", "((i < 5) IS NOT TRUE)"),
    same("(o AND i = 5) IS UNKNOWN", "((o AND (i = 5)) IS UNKNOWN)"),
    same("(i IS NULL) IS FALSE", "((i IS NULL) IS FALSE)"),
    same("i BETWEEN -1 AND 9", "((i >= -1) AND (i <= 9))"),
    same("s NOT BETWEEN -9 AND 9", "((s < -9) OR (s > 9))"),
    same("b BETWEEN SYMMETRIC 9 AND -9", "(((b >= 9) AND (b <= -9)) OR ((b >= -9) AND (b <= 9)))"),
    same("(i, t) = (5, 'a')", "((i = 5) AND (t = 'a'::text))"),
    # Texts, including texts that contain parts of other forms.
    same("t = 'a'", "(t = 'a'::text)"),
    same("t <> ''", "(t <> ''::text)"),
    same("'a' = t", "('a'::text = t)"),
    same("t = 'it''s'", "(t = 'it''s'::text)"),
    same("t = ''''''", "(t = ''''''::text)"),
    same(r"t = E'one\\slash'", r"(t = 'one\slash'::text)"),
    same(r"t = '\'", r"(t = '\'::text)"),
    same(r"t = '\\'", r"(t = '\\'::text)"),
    same(r"t = E'two\nlines'", "(t = 'two\nlines'::text)"),
    same("t = '-- no comment'", "(t = '-- no comment'::text)"),
    same("t = '/* none'", "(t = '/* none'::text)"),
    same("t = '(2)::bigint'", "(t = '(2)::bigint'::text)"),
    same("t = '''-5''::integer'", "(t = '''-5''::integer'::text)"),
    same("t = '(s)::integer'", "(t = '(s)::integer'::text)"),
    same("t = '(v)::text'", "(t = '(v)::text'::text)"),
    same("t = '= ANY (ARRAY[1, 2])'", "(t = '= ANY (ARRAY[1, 2])'::text)"),
    same("t = '1'", "(t = '1'::text)"),
    same("t <> '-5'", "(t <> '-5'::text)"),
    same("t = '\"Up\"'", "(t = '\"Up\"'::text)"),
    same("t = 'a''::text OR true --'", "(t = 'a''::text OR true --'::text)"),
    same("t = 'é漢😀'", "(t = 'é漢😀'::text)"),
    same("t = $$%%$$", "(t = '%%'::text)"),
    other("v = 'a'", "(v = 'a'::text)"),
    other("v <> 'it''s'", "(v <> 'it''s'::text)"),
    other("v = '(v)::text'", "(v = '(v)::text'::text)"),
    other("w = 'a' OR w = '(2)::bigint'", "((w = 'a'::text) OR (w = '(2)::bigint'::text))"),
    other("w::text = ''", "(w = ''::text)"),
    same("v IS NULL AND w IS NOT NULL", "((v IS NULL) AND (w IS NOT NULL))"),
    # Names.
    same('"Up" = -5', '("Up" = -5)'),
    same('"Up" % 3 = 1', '(("Up" % 3) = 1)'),
    same('"Up" < 3000000000', '("Up" < 3000000000)'),
    other('"Up"::bigint = 5', '("Up" = 5)'),
    same('"or" OR "or" IS NULL', '("or" OR ("or" IS NULL))'),
    same("\"'\" = 'a'", "(\"'\" = 'a'::text)"),
    same("\"'\" <> '\"' AND t = '\"'", "((\"'\" <> '\"'::text) AND (t = '\"'::text))"),
    same("\"a \"\"b\"\"::bigint\" = 'it''s'", "(\"a \"\"b\"\"::bigint\" = 'it''s'::text)"),
    same('"é (s)::integer" % 3 = 1', '(("é (s)::integer" % 3) = 1)'),
    other("\"é (s)::integer\" = '-5'", '("é (s)::integer" = -5)'),
    # Lists, and what is distinct.
    same("s IN (5, -5, 7)", "(s IN (5, -5, 7))"),
    same("s NOT IN (5, 3000000000)", "(s NOT IN (5, 3000000000))"),
    same("i IN (5, -5)", "(i IN (5, -5))"),
    same("i NOT IN (5, -2147483648, 2147483647)", "(i NOT IN (5, -2147483648, 2147483647))"),
    same("i IN (5, -3000000000)", "(i IN (5, -3000000000))"),
    same("b IN (5, -5, 9223372036854775807)", "(b IN (5, -5, 9223372036854775807))"),
    same("b NOT IN (5, 6)", "(b NOT IN (5, 6))"),
    same("t IN ('a', 'it''s', '', 'ARRAY[1])')", "(t IN ('a'::text, 'it''s'::text, ''::text, 'ARRAY[1])'::text))"),
    same("t NOT IN ('a', '(2)::bigint')", "(t NOT IN ('a'::text, '(2)::bigint'::text))"),
    same("o IN (true, false)", "(o IN (true, false))"),
    same("i % 3 IN (0, -1)", "((i % 3) IN (0, -1))"),
    same("s % 3 NOT IN (0, 1)", "((s % 3) NOT IN (0, 1))"),
    same("b % 3 IN (0, -1)", "((b % 3) IN (0, -1))"),
    same(
        "NOT \"Up\" IN (5, 6) AND \"'\" IN ('a', '\"')",
        "((NOT (\"Up\" IN (5, 6))) AND (\"'\" IN ('a'::text, '\"'::text)))"),
    same("i = ANY (ARRAY[5, 6])", "(i IN (5, 6))"),
    same("i <> ALL (ARRAY[5, 6])", "(i NOT IN (5, 6))"),
    other("i = ANY (ARRAY[5])", "(i IN (5))"),
    other("i::bigint IN (5, 6)", "(i IN (5, 6))"),
    other("s = ANY (ARRAY[5, 6]::smallint[])", "(s IN (5, 6))"),
    other("s IN ('5', '-5')", "(s IN (5, -5))"),
    other("b IN ('5', '-5')", "(b IN (5, -5))"),
    other("v::text IN ('a', 'it''s')", "(v IN ('a'::text, 'it''s'::text))"),
    same("i IS DISTINCT FROM 5", "(i IS DISTINCT FROM 5)"),
    same("b IS NOT DISTINCT FROM -3000000000", "(NOT (b IS DISTINCT FROM -3000000000))"),
    same("t IS DISTINCT FROM 'a'", "(t IS DISTINCT FROM 'a'::text)"),
    other("v IS DISTINCT FROM 'a'", "(v IS DISTINCT FROM 'a'::text)"),
]


@dataclass
class Refused:
    """A filter that pgshard refuses, its text in the catalog, the kind of the fault, and the text at the fault's
    position."""

    filter: str
    printed: str
    kind: str
    there: str


REFUSED = [
    Refused("b = -9223372036854775808", "(b = -9223372036854775808)", "NumberTooLarge", "9223372036854775808"),
    Refused("s = 32768::smallint", "(s = (32768)::smallint)", "LeftOut", "::smallint"),
    Refused("s % (-32769)::smallint = 0", "((s % (-32769)::smallint) = 0)", "LeftOut", "::smallint"),
    Refused("i = 3000000000::integer", "(i = (3000000000)::integer)", "LeftOut", "::integer"),
    Refused("i = 5::bigint::integer", "(i = (5)::integer)", "LeftOut", "::integer"),
    Refused("s = -((-32768)::smallint)", "(s = (- -32768))", "Expected", "-32768"),
    Refused("i::smallint = 5", "((i)::smallint = 5)", "LeftOut", "::smallint"),
    Refused("b::integer = 5", "((b)::integer = 5)", "LeftOut", "::integer"),
    Refused("s::integer::bigint = 5", "((s)::bigint = 5)", "LeftOut", "::bigint"),
    # A fault of a remainder's operands is reported before a cast that follows the remainder, and after a cast in
    # parentheses.
    Refused("s % i::smallint = 1", "((s % (i)::smallint) = 1)", "TypeClash", "% (i)"),
    Refused("b % b::integer = 1", "((b % ((b)::integer)::bigint) = 1)", "LeftOut", "::integer"),
    Refused("b = 5 % 3", "(b = (5 % 3))", "TypeClash", "% 3"),
    Refused("(i % 3)::bigint = 1", "(((i % 3))::bigint = 1)", "LeftOut", "::bigint"),
    Refused("i = 5.0", "((i)::numeric = 5.0)", "LeftOut", "::numeric"),
    Refused("o::text = 'true'", "((o)::text = 'true'::text)", "LeftOut", "::text"),
    Refused("w::varchar(3) = 'a'", "(((w)::character varying(3))::text = 'a'::text)", "LeftOut", "::character"),
    Refused("t = 'a'::varchar", "(t = ('a'::character varying)::text)", "LeftOut", "::character"),
    Refused("i = NULL", "(i = NULL::integer)", "LeftOut", "NULL"),
    Refused("i = b", "(i = b)", "LeftOut", "= b"),
    Refused("5 = 6", "(5 = 6)", "LeftOut", "= 6"),
    Refused("i + 1 = 3", "((i + 1) = 3)", "LeftOut", "+ 1"),
    Refused("i - -1 = 3", "((i - -1) = 3)", "LeftOut", "- -1"),
    Refused("i = +5", "(i = (+ 5))", "LeftOut", "+ 5"),
    Refused("- i = 3", "((- i) = 3)", "Expected", "i)"),
    Refused("i % 0 = 0", "((i % 0) = 0)", "ZeroDivisor", "0)"),
    Refused("t < 'a'", "(t < 'a'::text)", "LeftOut", "<"),
    Refused("o > false", "(o > false)", "LeftOut", ">"),
    Refused("t LIKE 'a%'", "(t ~~ 'a%'::text)", "LeftOut", "~~"),
    Refused("t || 'a' = 'ba'", "((t || 'a'::text) = 'ba'::text)", "LeftOut", "||"),
    Refused("t COLLATE \"C\" = 'a'", "((t COLLATE \"C\") = 'a'::text)", "Expected", "COLLATE"),
    Refused("length(t) = 3", "(length(t) = 3)", "LeftOut", "length"),
    Refused("coalesce(i, 5) = 3", "(COALESCE(i, 5) = 3)", "LeftOut", "COALESCE"),
    Refused(
        "CASE WHEN o THEN false ELSE true END", "\nCASE\n    WHEN o THEN false\n    ELSE true\nEND",
        "LeftOut", "CASE"),
    Refused("o = (i = 5)", "(o = (i = 5))", "TypeClash", "= (i"),
    Refused("i = ANY ('{1,2}')", "(i = ANY ('{1,2}'::integer[]))", "LeftOut", "ANY"),
    Refused("i > ANY (ARRAY[1, 2])", "(i > ANY (ARRAY[1, 2]))", "LeftOut", "ANY"),
    Refused("i <> ANY (ARRAY[1, 2])", "(i <> ANY (ARRAY[1, 2]))", "LeftOut", "ANY"),
    Refused("i = ANY (ARRAY[1, 1 + 1])", "(i = ANY (ARRAY[1, (1 + 1)]))", "LeftOut", "ANY"),
]
