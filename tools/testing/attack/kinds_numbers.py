"""Numbers, money, bits and booleans."""

from .kinds import ANY, ORDERED, Kind

SMALL = ("-9", "-8", "-5", "-4", "-3", "-2", "-1", "0", "1", "2", "3", "4", "5", "7", "8", "12", "100", "-100")
INTEGER = (
    "{c}::bigint <@ '[1,5)'::int8range", "{c}::bigint <@ '(1,5]'::int8range", "{c}::bigint <@ '(,3)'::int8range",
    "{c}::smallint = {r}", "num_nulls({c}, {d}) {op} 1", "num_nonnulls({c}, {d}, {k}) {op} 2", "{c} < {d} AND {d} {op} {k}",
    "{c} <= {d} AND {c} {op} {k}", "{c}::integer::boolean", "{c} {op} {d} OR {d} {op} {k}",
    "{c} % {m} {op} {r}", "mod({c}, {m}) {op} {r}", "abs({c} % {m}) {op} {r}", "({c} % {m} + {m}) % {m} {op} {r}",
    "({c} & {j}) {op} {r}", "({c} & {j}) = 0", "({c} & {m}) = ({c} & {j})", "({c} | {m}) {op} {k}",
    "({c} # {m}) {op} {k}", "({c} >> {m}) {op} {r}", "(({c} >> {m}) & 3) {op} {r}", "({c} << {m}) {op} {k}",
    "~{c} {op} {k}", "{c} + {m} {op} {k}", "{c} - {m} {op} {k}", "{m} - {c} {op} {k}", "{c} * {m} {op} {k}",
    "{c} * -{m} {op} {k}", "-{c} {op} {k}", "+{c} {op} {k}", "abs({c}) {op} {k}", "abs({c}) % {m} {op} {r}",
    "{c} / {m} {op} {r}", "({c} / {m}) % {m} {op} {r}", "{c} / -{m} {op} {r}", "@{c} {op} {k}", "{j} / {c} {op} {r}",
    "{j} % {c} {op} {r}", "coalesce({c}, {r}) % {m} {op} {r}", "{c} % -{m} {op} {r}", "{c} % {m} = {d} % {m}",
    "mod(abs({c}), {m}) {op} {r}", "{c} + {d} {op} {k}", "{c} - {d} {op} {k}", "{c} * {d} {op} {k}",
    "{c} = ANY ('{{1,2,3}}')", "{c} <> ALL ('{{1,2,NULL}}')", "{c} < ANY ('{{1,5}}')", "{c} >= ALL ('{{1,5}}')",
    "{c} = ANY ('{{}}')", "{c} <> ALL ('{{}}')", "{c} = ANY (ARRAY[{k}, {d}])", "{c} = ANY (ARRAY[{r}, NULL])",
    "{c}::bigint * {m} {op} {r}", "{c}::numeric {op} {r}.5", "{c}::numeric / {m} {op} {r}", "{c}::float8 {op} {r}.5",
    "{c}::float8 / {m} {op} {r}", "{c} {op} {r}.5", "{c} * {m}.5 {op} {r}", "gcd({c}, {m}) {op} {r}",
    "lcm({c}, {m}) {op} {r}", "{c}::smallint {op} {r}", "greatest({c}, {r}) % {m} {op} {r}", "to_hex({c}) = 'a'",
    "CASE WHEN {c} <> 0 THEN {j} / {c} ELSE 0 END {op} {r}", "{c} % {m} IN ({r}, {r})",
    "width_bucket({c}, 0, 9, 3) = {m}",
    "abs({c}) IS NULL", "{c} + {m} IS NULL", "coalesce({c} + {d}, {r}) {op} {k}", "{c} % {m} IS DISTINCT FROM {r}",
    "{c}::oid::bigint {op} {r}", "int4larger({c}::integer, {m}) = {m}", "{c} % {m} < {d}", "{c} / {m} = {d} / {m}",
    "({c} + {m}) % {m} {op} {r}", "({c} - {r}) BETWEEN {r} AND {m}", "{c} % {m} + {c} / {m} {op} {r}",
    "({c} # {d}) {op} 0", "{c} & {d} = {r}", "2 * {c} - {c} {op} {k}", "{c} - {c} = 0", "{c} * 0 = 0", "{c} / {c} = 1",
)
MEASURES = (
    "{c} % {m}", "abs({c} % {m})", "({c} & {m})", "{c} / {m}", "mod({c}, {m})", "({c} >> 2) & {m}", "abs({c}) % {m}",
    "{c} + {m}", "sign({c})", "(({c} % {m}) + {m}) % {m}", "coalesce({c}, 0) % {m}", "-{c}",
    "CASE WHEN {c} < 0 THEN 0 WHEN {c} < {m} THEN 1 ELSE 2 END", "hashint8({c}) % {m}", "nullif({c} % {m}, {r})",
)
FRACTIONS = (
    "{c} + 1 {op} {k}", "{c} * 2 {op} {k}", "-{c} {op} {k}", "abs({c}) {op} {k}", "sign({c}) {op} {r}",
    "floor({c}) {op} {k}", "ceil({c}) {op} {r}", "round({c}) {op} {r}", "trunc({c}) {op} {r}", "{c}::integer {op} {r}",
    "{c}::bigint % {m} {op} {r}", "{c} / {m} {op} {k}", "{m} / {c} {op} {r}", "sqrt({c}) {op} {r}", "ln({c}) {op} {r}",
    "{c} - {c} = 0", "{c} * 0 = 0", "{c} + {d} {op} {k}", "{c} * {d} {op} {k}", "exp({c}) {op} {r}",
    "power({c}, 2) {op} {m}", "{c} = ANY ('{{1,NaN,NULL}}')", "{c} <> ALL ('{{NaN,0}}')",
)
NUMERIC = (
    "{c} % {m} {op} {r}", "mod({c}, {m}) {op} {r}", "div({c}, {m}) {op} {r}", "scale({c}) {op} {r}",
    "round({c}, 1) {op} {k}", "trunc({c}, -1) {op} {k}", "min_scale({c}) {op} {r}", "{c}::float8 {op} {r}",
    "{c}::float4 {op} {r}", "{c}::smallint {op} {r}", "{c}::numeric(4,1) {op} {r}", "gcd({c}, {m}) {op} {r}",
    "width_bucket({c}, 0, 9, 3) = {m}", "trim_scale({c}) {op} {k}", "hash_numeric({c}) % 2 = 0", "{c} {op} 1e200",
    "log({c}) {op} {r}", "factorial({m}) {op} {c}", "abs({c}) % {m} {op} {r}",
)
BOOLEAN = (
    "{c}", "NOT {c}", "{c} IS TRUE", "{c} IS NOT TRUE", "{c} IS FALSE", "{c} IS NOT FALSE", "{c} IS UNKNOWN",
    "{c} IS NOT UNKNOWN", "{c} = {d}", "{c} <> {d}", "{c} < {d}", "{c} >= {k}", "{c}::integer {op} {r}",
    "coalesce({c}, {k})", "({c} OR {d}) IS NULL", "({c} AND {d}) IS NOT TRUE", "({c} IS NULL) = ({d} IS NULL)",
    "CASE WHEN {c} THEN {d} END", "nullif({c}, {k}) IS NULL", "{c} = ANY ('{{t,NULL}}')", "({c} IN ({k})) IS NOT FALSE",
    "booleq({c}, {k})", "greatest({c}, {d})", "least({c}, {k})", "({c}, {d}) = ({k}, {k})", "{c} IS DISTINCT FROM {d}",
)
BITS = (
    "({c} & {k}) = {k}", "({c} | {k}) = {k}", "length({c}) {op} {r}", "get_bit({c}, 0) = 1", "bit_count({c}) {op} {r}",
    "~{c} {op} {k}", "substring({c}, 1, 2) {op} B'10'", "{c} << 1 {op} {k}", "position(B'1' IN {c}) {op} {r}",
    "octet_length({c}) {op} 1", "{c}::integer {op} {r}", "({c} || B'1') {op} {k}", "substring({c}, 0) = {c}",
)
FLOATS = (
    "'NaN'", "'Infinity'", "'-Infinity'", "'-0'", "0", "1", "-1", "1.5", "0.1", "1e-30", "-1.5", "2.5", "3", "1e10")


def integers(name: str, type: str, bits: int) -> Kind:
    """Returns a kind of integer with its least and greatest values."""
    ends = [-2 ** (bits - 1), -2 ** (bits - 1) + 1, 2 ** (bits - 1) - 2, 2 ** (bits - 1) - 1]
    values = (*SMALL, *(f"'{it}'" for it in ends))
    return Kind(name, type, values, (*ANY, *ORDERED, *INTEGER, *INTEGER), MEASURES)


KINDS = [
    integers("int2", "smallint", 16), integers("int4", "integer", 32), integers("int8", "bigint", 64),
    Kind("numeric", "numeric", (
        "'NaN'", "'Infinity'", "'-Infinity'", "0", "0.00", "1", "-1", "1.5", "0.1", "99.995", "100", "1e20", "-1e20",
        "1e-20", "2.50", "-2.5", "9223372036854775808", "3"), (*ANY, *ORDERED, *FRACTIONS, *NUMERIC),
        ("trunc({c} % {m})",)),
    Kind("cents", "numeric(6,2)", (
        "'NaN'", "-9999.99", "9999.99", "0", "0.01", "-0.01", "99.99", "100", "100.01", "1", "2.5", "-1", "3"),
        (*ANY, *ORDERED, *FRACTIONS, *NUMERIC), ("floor({c})",)),
    Kind("tens", "numeric(2,-1)", ("'NaN'", "-990", "990", "0", "10", "-10", "100"), (*ANY, *ORDERED, *FRACTIONS)),
    Kind("tiny", "numeric(2,4)", ("'NaN'", "0.0099", "-0.0099", "0", "0.0001", "0.005"), (*ANY, *ORDERED)),
    Kind("float8", "double precision", (*FLOATS, "'1e308'", "'-1e308'", "'5e-324'", "'1.7976931348623157e308'"),
         (*ANY, *ORDERED, *FRACTIONS, "{c}::float4 {op} {r}", "{c}::numeric {op} {r}", "{c} {op} 0.1::float4")),
    Kind("float4", "real", (*FLOATS, "'3e38'", "'-3e38'", "'1e-45'"),
         (*ANY, *ORDERED, *FRACTIONS, "{c}::float8 {op} 0.1", "{c} {op} 0.1", "{c} = 0.1::real")),
    Kind("bool", "boolean", ("true", "false"), (*ANY, *BOOLEAN), ("{c}::integer",)),
    Kind("money", "money", ("0", "1", "-1", "1.50", "'92233720368547758.07'", "'-92233720368547758.08'", "100"), (
        *ANY, "{c} {op} {k}::money", "{c} * 2 {op} 3::money", "{c} + 1::money {op} 2::money", "{c} / 2 {op} 1::money",
        "{c} IN (1::money, 0::money)", "{c} / 1::money {op} 1", "{c} = {d}")),
    Kind("bit", "bit(4)", ("B'0000'", "B'1111'", "B'1000'", "B'0001'", "B'1010'"), (*ANY, *ORDERED, *BITS)),
    Kind("varbit", "bit varying(6)", ("B''", "B'0'", "B'1'", "B'111111'", "B'1010'", "B'00'"), (*ANY, *ORDERED, *BITS)),
    Kind("oid", "oid", ("0", "1", "'4294967295'", "'2147483648'", "5"), (
        *ANY, "{c} {op} 5", "{c} {op} {k}", "{c}::bigint % {m} {op} {r}", "{c} IN (1, 5)", "{c} {op} {d}")),
]
