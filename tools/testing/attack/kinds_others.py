"""Networks, ranges, arrays, JSON, geometric types and text search types; and types created in the database."""

from .kinds import ANY, ORDERED, Kind

NETWORK = (
    "{c} << '10.1.0.0/16'", "{c} <<= '10.1.0.0/16' AND {c} {op} {k}", "{c} <<= '::/0'", "{c} << '0.0.0.0/0'", "'10.0.0.0/8' >> {c}",
    "'10.0.0.0/8'::inet >>= {c}", "family({c}) {op} 5", "NOT {c} <<= '10.0.0.1/8' AND {c} {op} {k}", "{c} << {d}", "{c} <<= '::1/64'",
    "{c} << '10.0.0.0/8'", "{c} <<= '10.0.0.0/8'", "{c} >>= '10.1.0.0/16'", "{c} && '10.0.0.0/8'", "family({c}) = 4",
    "masklen({c}) {op} 16", "host({c}) {op} '1'", "network({c}) {op} '10.0.0.0/8'", "{c} + 1 {op} {k}",
    "~{c}::inet {op} {k}",
    "text({c}) LIKE '10.%'", "inet_same_family({c}, '::')", "({c}::inet & '255.0.0.0') = '10.0.0.0'",
    "abbrev({c}) {op} '1'",
    "set_masklen({c}::inet, 8) {op} {k}", "{c}::inet - '0.0.0.0'::inet {op} 5", "broadcast({c}) {op} {k}")
RANGE = (
    "isempty({c})", "NOT isempty({c})", "lower({c}) IS NULL", "upper({c}) IS NOT NULL", "lower_inc({c})",
    "upper_inf({c})",
    "NOT upper_inf({c})", "lower_inf({c})", "{c} = 'empty'", "{c} && {k}", "{c} @> {k}", "{c} <@ {k}", "{c} << {k}",
    "{c} >> {k}", "{c} &< {k}", "{c} -|- {k}", "{c} * {k} = 'empty'", "{c} + {k} {op} {l}", "{c} - {k} {op} {l}",
    "{c} @> {d}", "{c} && {d}", "range_merge({c}, {k}) = {l}", "{c} @> NULL", "lower({c}) {op} lower({k}::TYPE)")
INTEGER_RANGE = (
    "lower({c}) {op} {r}", "upper({c}) {op} {m}", "{c} @> {m}", "upper({c}) - lower({c}) {op} {m}",
    "lower({c}) % {m} {op} {r}", "coalesce(lower({c}), 0) {op} {r}", "NOT {c} @> {m}", "{m} <@ {c}")
ARRAY = (
    "cardinality({c}) {op} {r}", "array_length({c}, 1) {op} {m}", "array_length({c}, 1) IS NULL",
    "array_ndims({c}) {op} 1",
    "array_lower({c}, 1) {op} 1", "array_upper({c}, 1) {op} {m}", "{c} @> {k}", "{c} && {k}", "{c} <@ {k}",
    "{c} @> {d}",
    "{c} || {k} {op} {l}", "array_to_string({c}, ',') {op} 'a'", "array_dims({c}) {op} '[1:1]'",
    "trim_array({c}, 1) {op} {k}")
INTEGER_ARRAY = (
    "{m} = ANY ({c})", "{m} <> ALL ({c})", "{m} < ANY ({c})", "{m} >= ALL ({c})", "NOT ({m} = ANY ({c}))",
    "{m} <> ANY ({c})", "{m} = ALL ({c})", "NULL = ANY ({c})", "array_position({c}, {m}) IS NULL",
        "array_position({c}, {m}) {op} 1",
    "array_remove({c}, {m}) {op} {k}", "array_append({c}, {m}) {op} {k}",
    "cardinality(array_positions({c}, {m})) {op} 1",
    "array_replace({c}, 1, 2) {op} {k}", "({m} = ANY ({c})) IS NULL", "NOT {m} < ALL ({c})", "{c} @> ARRAY[{m}, NULL]")
TEXT_ARRAY = (
    "'a' = ANY ({c})", "'a' <> ALL ({c})", "'a' LIKE ANY ({c})", "'a' ~ ANY ({c})", "NOT ('a' = ANY ({c}))",
        "'b' < ALL ({c})",
    "array_position({c}, 'a') IS NOT NULL", "{c} @> '{{a}}'", "{c} && ARRAY['a', NULL]")
JSONB = (
    "{c} ->> 'a' {op} '1'", "{c} ->> 'a' IS NULL", "{c} -> 'a' IS NOT NULL", "{c} ? 'a'", "{c} ?| '{{a,b}}'",
    "{c} ?& '{{a}}'",
    "{c} @> '{{\"a\": 1}}'", "{c} <@ '{{\"a\": 1}}'", "jsonb_typeof({c}) {op} 'object'",
    "jsonb_array_length({c}) {op} 1",
    "({c} -> 'a')::integer {op} 1", "({c} -> 'a') = '1'", "{c} = 'null'", "{c} @? '$.a'", "{c} @@ '$.a == 1'",
    "{c} #>> '{{a,b}}' IS NULL", "{c} #>> '{{a}}' {op} '1'", "jsonb_extract_path_text({c}, 'a') {op} '1'",
    "{c} - 'a' {op} '{{}}'",
    "{c} || '{{\"b\": 2}}' {op} {k}", "{c} ->> 0 {op} '1'", "jsonb_path_exists({c}, '$.a')",
    "jsonb_path_match({c}, '$.a == 1')",
    "coalesce({c} ->> 'a', '') {op} '1'", "length({c} ->> 'a') {op} {r}", "NOT {c} ? 'a'",
    "jsonb_strip_nulls({c}) {op} {k}",
    "lower({c} ->> 'a') = 'x'", "({c} ->> 'a') LIKE 'x%'", "jsonb_hash({c}) % 2 = 0", "{c} #- '{{a}}' {op} {k}")
BOX = (
    "{c} @> box '(1,1),(0,0)'", "{c} && {k}", "{c} = {k}", "{c} ~= {k}", "area({c}) {op} 1", "{c} @> point '(0,0)'",
    "height({c}) {op} 1", "center({c}) ~= point '(0,0)'", "{c} << {k}", "{c} |>> {k}", "{c} < {k}",
    "diagonal({c}) = lseg '(0,0),(1,1)'")
CIRCLE = (
    "{c} @> circle '<(0,0),1>'", "{c} && {k}", "{c} = {k}", "{c} ~= {k}", "area({c}) {op} 1", "{c} @> point '(0,0)'",
    "radius({c}) {op} 1", "diameter({c}) {op} 1", "{c} <@ {k}", "NOT {c} && {k}", "{c} < {k}", "{c} <-> {k} {op} 1")
POINT = (
    "{c} ~= {k}", "{c} <@ box '(1,1),(0,0)'", "{c} <@ circle '<(0,0),1>'", "{c} << {k}", "{c} <-> {k} {op} 1",
    "{c} ?- {k}",
    "slope({c}, {k}) {op} 1", "{c} <@ path '[(0,0),(1,1)]'", "{c} <@ polygon '((0,0),(1,1),(1,0))'", "{c} + {k} ~= {k}",
    "NOT {c} <@ circle '<(0,0),1>'", "{c} <@ line '{{1,-1,0}}'", "{c} <@ lseg '(0,0),(1,1)'")
PATH = (
    "length({c}) {op} {m}", "length({c}) <= 5", "length({c}) >= 6", "npoints({c}) {op} 2", "isopen({c})",
    "isclosed({c})",
    "{c} = {k}", "{c} < {k}", "{c} + {k} IS NULL", "area({c}) IS NULL", "area({c}) {op} 1", "{c} ?# {k}",
        "{c} <-> {k} {op} 1")
POLYGON = (
    "{c} && {k}", "{c} @> {k}", "{c} @> point '(0,0)'", "{c} ~= {k}", "npoints({c}) {op} 3", "{c} << {k}", "{c} <@ {k}")
LSEG = ("length({c}) {op} {m}", "isvertical({c})", "{c} = {k}", "{c} ?# {k}", "{c} ?|| {k}", "{c} < {k}",
    "{c} <@ box '(1,1),(0,0)'")
SEARCH = (
    "{c} @@ 'a'::tsquery", "length({c}) {op} {r}", "{c} = 'a:1'", "strip({c}) = 'a'", "{c} || 'b' = 'b'",
    "ts_rank({c}, 'a') {op} 0", "NOT {c} @@ 'a'::tsquery")
QUERY = (
    "'a:1'::tsvector @@ {c}", "({c} && 'a'::tsquery) = 'a'::tsquery", "numnode({c}) {op} {r}", "{c} @> 'a'::tsquery",
    "({c} && 'a'::tsquery) IS NULL", "querytree({c}) {op} 'a'", "{c} = 'a'")
POINTS = ("'(0,0)'", "'(1,1)'", "'(NaN,0)'", "'(Infinity,0)'", "'(1e308,0)'", "'(-1e308,1e308)'", "'(0.5,0)'",
    "'(-1,2)'")


def ranges(name: str, type: str, values: tuple[str, ...], more: tuple[str, ...] = ()) -> Kind:
    """Returns a kind of range."""
    own = tuple(it.replace("TYPE", type) for it in RANGE)
    return Kind(name, type, ("'empty'", "'(,)'", *values), (*ANY, *ORDERED, *own, *own, *more), ())


MULTI = tuple(it for it in RANGE if "TYPE" not in it and "'empty'" not in it)
KINDS = [
    Kind("inet", "inet", ("'10.0.0.1'", "'10.1.0.0/16'", "'0.0.0.0'", "'255.255.255.255'", "'::'", "'::1/64'",
        "'10.0.0.1/8'"), (
        *ANY, *ORDERED, *NETWORK), ("masklen({c})", "family({c})")),
    Kind("cidr", "cidr", ("'10.0.0.0/8'", "'0.0.0.0/0'", "'255.255.255.255/32'", "'::/0'", "'10.1.0.0/16'"), (
        *ANY, *ORDERED, *NETWORK), ("masklen({c})",)),
    Kind("macaddr", "macaddr", ("'00:00:00:00:00:00'", "'ff:ff:ff:ff:ff:ff'", "'08:00:2b:01:02:03'"), (
        *ANY, *ORDERED, "trunc({c}) {op} {k}", "({c} & {k}) = {k}")),
    ranges("int4range", "int4range", (
        "'[1,5)'", "'(,3)'", "'[3,)'", "'[1,1]'", "'[-5,2)'", "'[2147483646,2147483647)'", "'[0,10)'"),
        INTEGER_RANGE * 2),
    ranges("numrange", "numrange", ("'[1,5)'", "'(1,5]'", "'(,3.5]'", "'[NaN,NaN]'", "'[1,Infinity)'", "'[1,1]'"), (
        "lower({c}) {op} {r}", "{c} @> 1.5", "upper({c}) {op} {m}")),
    ranges("daterange", "daterange", ("'[2024-01-01,2024-02-01)'", "'(,2024-01-01)'", "'[2024-01-01,infinity)'",
    "'[infinity,infinity]'"), (
        "lower({c}) {op} '2024-01-01'", "upper({c}) {op} '2024-02-01'", "{c} @> date '2024-01-15'")),
    ranges("tsrange", "tsrange", ("'[2024-01-01,2024-02-01)'", "'(,2024-01-01]'", "'[2024-01-01,infinity]'"), (
        "lower({c}) {op} '2024-01-01'", "{c} @> timestamp '2024-01-15'")),
    Kind("multirange", "int4multirange", ("'{}'", "'{[1,3),[5,8)}'", "'{(,)}'", "'{[1,2)}'", "'{[3,)}'"), (
        *ANY, *ORDERED, *MULTI, "lower({c}) {op} {r}", "{c} @> {m}", "isempty({c})", "lower({c}) IS NULL")),
    Kind("int4array", "integer[]", ("'{}'", "'{1}'", "'{1,2,3}'", "'{NULL}'", "'{1,NULL}'", "'{{1,2},{3,4}}'",
        "'[0:1]={1,2}'", "'{5}'"), (
        *ANY, *ORDERED, *ARRAY, *INTEGER_ARRAY * 2), ("cardinality({c})",)),
    Kind("textarray", "text[]", ("'{}'", "'{a}'", "'{a,b}'", "'{NULL}'", "'{a,NULL}'", "'{{a,b},{c,d}}'", "'{\"\"}'",
        "'{%}'"), (
        *ANY, *ORDERED, *ARRAY, *TEXT_ARRAY * 2), ("cardinality({c})",)),
    Kind("jsonb", "jsonb", ("'null'", "'{}'", "'[]'", "'{\"a\": 1}'", "'{\"a\": null}'", "'{\"a\": \"x\"}'", "'1'",
        "'\"a\"'", "'[1]'", "'{\"a\": {\"b\": 2}}'"), (
        *ANY, *JSONB, *JSONB, "{c} {op} {k}", "{c} = {d}", "{c} IS DISTINCT FROM {k}"), ()),
    Kind("json", "json", ("'null'", "'{}'", "'{\"a\": 1}'", "'{\"a\": null}'", "'[1]'", "'{\"a\":1,\"a\":2}'"), (
        *ANY, "{c} ->> 'a' {op} '1'", "json_typeof({c}) = 'object'", "({c} -> 'a') IS NULL",
        "json_array_length({c}) = 1"), is_ordered=False),
    Kind("box", "box", ("'(1,1),(0,0)'", "'(0,0),(0,0)'", "'(1e308,1e308),(-1e308,-1e308)'", "'(NaN,1),(0,0)'",
        "'(2,2),(-1,-1)'"), (*ANY, *BOX), is_ordered=False),
    Kind("circle", "circle", ("'<(0,0),1>'", "'<(0,0),0>'", "'<(1e308,0),1e308>'", "'<(-1e308,0),5>'", "'<(0,0),NaN>'",
        "'<(5,5),2>'"), (*ANY, *CIRCLE), is_ordered=False),
    Kind("point", "point", POINTS, (*ANY, *POINT), is_ordered=False),
    Kind("path", "path", ("'[(0,0),(5.5,0)]'", "'((0,0),(1,0),(1,1))'", "'[(0,0)]'", "'[(0,0),(1e308,0),(-1e308,0)]'",
        "'[(0,0),(NaN,0)]'", "'[(0,0),(3,4)]'"), (*ANY, *PATH), is_ordered=False),
    Kind("polygon", "polygon", ("'((0,0),(1,0),(1,1))'", "'((0,0))'", "'((1e308,0),(-1e308,0),(0,1e308))'",
        "'((NaN,0),(1,1))'"), (*ANY, *POLYGON), is_ordered=False),
    Kind("lseg", "lseg", ("'(0,0),(1,1)'", "'(0,0),(0,5.5)'", "'(1e308,0),(-1e308,0)'", "'(0,0),(NaN,0)'",
        "'(0,0),(0,0)'"), (*ANY, *LSEG), is_ordered=False),
    Kind("tsvector", "tsvector", ("''", "'a:1'", "'a b'", "'b:2'"), (*ANY, *SEARCH), is_ordered=False),
    Kind("tsquery", "tsquery", ("''", "'a'", "'a & b'", "'!a'"), (*ANY, *QUERY), is_ordered=False),
    Kind("lsn", "pg_lsn", ("'0/0'", "'FFFFFFFF/FFFFFFFF'", "'0/1'", "'1/0'"),
        (*ANY, *ORDERED, "{c} - '0/0'::pg_lsn {op} 1", "{c} + 1 {op} {k}")),
    Kind("xml", "xml", ("'<a/>'", "'<a>1</a>'", "'text'"), ("{c} IS NULL", "{c} IS NOT NULL",
        "xpath_exists('/a', {c})", "{c} IS DOCUMENT"), is_ordered=False),
]
MOOD = (
    "CREATE TYPE mood AS ENUM ('sad', 'happy'); ALTER TYPE mood ADD VALUE 'ok' BEFORE 'happy';"
    "ALTER TYPE mood ADD VALUE 'zen';")
AGE = (
    "CREATE DOMAIN whole AS integer CHECK (VALUE >= 0); CREATE DOMAIN age AS whole CHECK (VALUE < 150);")
CODE = "CREATE DOMAIN code AS text CHECK (VALUE ~ '^[a-z]*$') CHECK (length(VALUE) < 4);"
CASELESS = (
    "CREATE COLLATION IF NOT EXISTS caseless (provider = icu, locale = 'und-u-ks-level2', deterministic = false);")
OWN = (*ANY, "{c} = {k}", "{c} <> {k}", "{c} {op} {k}", "{c} IN ({k}, {l})", "{c} NOT IN ({k})",
    "coalesce({c}, {k}) = {l}")
# Filters cannot name these; constraints and partitions can.
UNFILTERED = [
    Kind("mood", "mood", ("'sad'", "'ok'", "'happy'", "'zen'"), OWN, is_filtered=False, needs=MOOD),
    Kind("age", "age", ("0", "1", "149"), (*OWN, "{c} % 2 = 0", "{c}::integer < {k}"), is_filtered=False, needs=AGE),
    Kind("code", "code", ("''", "'a'", "'abc'", "'b'"), (*OWN, "length({c}) = 1", "{c} LIKE 'a%'"), is_filtered=False,
        needs=CODE),
    Kind("caseless", "text COLLATE caseless", ("''", "'a'", "'A'", "'b'", "'B'"), (*OWN, "lower({c}) = 'a'"),
        is_filtered=False, needs=CASELESS),
]
