"""The extreme values of the server's types, with nulls and with empty and infinite values, in SQL."""

TEXTS = ["''", "' '", "'a'", "'A'", "'abc'", "'é'", "'%'", "'\\'", "'ﬀ'", "'İ'", "repeat('x', 5000)", "E'\\n\\t'", "'b,c'",
         "'aaaa'", "'€𝄞'", "'a\"b c'", "'select'"]
WHOLE = {"int2": (-32768, 32767), "int4": (-2147483648, 2147483647),
         "int8": (-9223372036854775808, 9223372036854775807)}
FLOATS = ["'NaN'", "'Infinity'", "'-Infinity'", "0", "'-0'", "1.5", "-1.5"]
POINTS = ["'(0,0)'", "'(1,1)'", "'(NaN,0)'", "'(Infinity,0)'", "'(-Infinity,Infinity)'", "'(1e308,-1e308)'", "'(5e-324,0)'",
          "'(NaN,NaN)'"]
EDGES: dict[str, list[str]] = {
    "text": TEXTS, "varchar": TEXTS, "bpchar": ["''", "'a  '", "'é'", "'abc'"], "name": ["''", "'a'", "'abc'"],
    "char": ["''", "'a'", "' '", "'~'"], "bool": ["true", "false"],
    "bytea": ["''", "'\\x00'", "'\\xff00ff'", "'\\x61'"],
    **{name: [f"'{low}'", f"'{low + 1}'", "-7", "-1", "0", "1", "2", "8", "31", "32", "64", f"'{high - 1}'", f"'{high}'"]
       for name, (low, high) in WHOLE.items()},
    "float4": [*FLOATS, "'3.4028235e38'", "'-3.4028235e38'", "'1e-45'", "0.1"],
    "float8": [*FLOATS, "'1.7976931348623157e308'", "'-1.7976931348623157e308'", "'5e-324'", "0.1", "1.41421356237"],
    "numeric": [*FLOATS, "1e130000", "-1e130000", "1e-16000", "repeat('9', 131000)", "0.1"],
    "uuid": ["'00000000-0000-0000-0000-000000000000'", "'ffffffff-ffff-ffff-ffff-ffffffffffff'"],
    "date": ["'-infinity'", "'infinity'", "'4714-11-24 BC'", "'5874897-12-31'", "'0001-01-01'", "'2024-02-29'",
             "'294276-12-31'", "'294277-01-01'"],
    "timestamp": ["'-infinity'", "'infinity'", "'4714-11-24 00:00:00 BC'", "'294276-12-31 23:59:59.999999'",
                  "'0001-12-31 BC'", "'2024-02-29 12:00:00.5'"],
    "time": ["'00:00:00'", "'24:00:00'", "'23:59:59.999999'"],
    "timetz": ["'00:00:00+00'", "'24:00:00-15:59'", "'23:59:59.999999+15:59'", "'12:00:00+02'", "'10:00:00+00'"],
    "interval": ["'0'", "'1 month'", "'30 days'", "'720 hours'", "'-1 day'", "'1 day -24 hours'", "'178000000 years'",
                 "'-178000000 years'", "'1 microsecond'", "'1 year 2 months 3 days 04:05:06.7'", "'2147483647 days'"],
    "jsonb": ["'null'", "'{}'", "'[]'", "'1'", "'\"a\"'", "'{\"a\": {\"b\": null}, \"\": 1}'", "'[1, [2], \"a\", null]'",
              "'[]'::jsonb || jsonb_build_array(repeat('x', 3000))", "'true'", "'{\"a\": 1.50}'"],
    "json": ["'null'", "'{}'", "'[]'", "'1'", "'\"a\"'", "'{\"a\":1, \"a\":null}'", "'{\"a\": \"x\"}'", "'{\"a\": {\"a\": 1}}'", "'[1, [2], \"a\", null]'",
             "'{\"a\": \"\\ud800\"}'", "'{\"a\": \"\\u0000\"}'"],
    "jsonpath": ["'$'", "'$.a'", "'$[*] ? (@ > 1)'", "'strict $.a'", "'$.a == 1'", "'$.datetime()'"],
    "_text": ["'{}'", "'{a}'", "'{a,b}'", "'{NULL}'", "'{0,1}'", "'{-1}'", "'{{a},{b}}'"],
    "inet": ["'0.0.0.0/0'", "'255.255.255.255'", "'10.0.0.1/8'", "'::'", "'ffff::1/128'", "'::ffff:1.2.3.4'"],
    "cidr": ["'0.0.0.0/0'", "'255.255.255.255/32'", "'10.0.0.0/8'", "'::/0'"],
    "macaddr": ["'00:00:00:00:00:00'", "'ff:ff:ff:ff:ff:ff'"],
    "macaddr8": ["'00:00:00:00:00:00:00:00'", "'ff:ff:ff:ff:ff:ff:ff:ff'"],
    "money": ["'0'", "'-0.01'", "'92233720368547758.07'", "'-92233720368547758.08'"],
    "bit": ["B''", "B'0'", "B'1'", "B'10000001'", "repeat('1', 70)"], "varbit": ["B''", "B'0'", "B'1'", "B'10000001'"],
    "pg_lsn": ["'0/0'", "'0/1'", "'FFFFFFFF/FFFFFFFF'"],
    "tsvector": ["''", "'a:1'", "'a b'", "'b:2A'"], "tsquery": ["''", "'a'", "'a & b'", "'!a'", "'a <-> b'"],
    "regconfig": ["'simple'", "'english'"], "xml": ["'<a/>'", "'<a>1</a>'", "'text'"],
    "point": POINTS, "box": ["'(1,1),(0,0)'", "'(0,0),(0,0)'", "'(1e308,1e308),(-1e308,-1e308)'", "'(NaN,1),(0,0)'",
                             "'(Infinity,1),(-Infinity,0)'"],
    "circle": ["'<(0,0),1>'", "'<(0,0),0>'", "'<(1e308,0),1e308>'", "'<(-1e308,0),5>'", "'<(0,0),NaN>'", "'<(0,0),Infinity>'"],
    "lseg": ["'(0,0),(1,1)'", "'(1e308,0),(-1e308,0)'", "'(0,0),(NaN,0)'", "'(0,0),(0,0)'"],
    "path": ["'[(0,0),(5.5,0)]'", "'((0,0),(1,0),(1,1))'", "'[(0,0)]'", "'((0,0),(1e308,0),(-1e308,1e308))'", "'[(0,0),(NaN,0)]'"],
    "polygon": ["'((0,0),(1,0),(1,1))'", "'((0,0))'", "'((1e308,0),(-1e308,0),(0,1e308))'", "'((NaN,0),(1,1))'"],
}
EDGES["timestamptz"] = [f"{it[:-1]} +00'" if "infinity" not in it else it for it in EDGES["timestamp"] if "BC" not in it]
EDGES["timestamptz"] += ["'4714-11-24 00:00:00+00 BC'", "'294276-12-31 23:59:59.999999+00'::timestamptz(0)"]
# The last timestamp of all can only be obtained by rounding.
EDGES["timestamp"] += ["'294276-12-31 23:59:59.999999'::timestamp(0)"]
ARRAYS = [f"{text}::{type}[]" for type in ("int4", "text", "numeric", "date", "uuid") for text in ("NULL", "'{}'", "'{NULL}'")]
ARRAYS += ["'{1,2}'::int4[]", "'{{1,2},{3,NULL}}'::int4[]", "'[5:6]={1,2}'::int4[]", "'{a,NULL}'::text[]",
           "'{NaN,Infinity}'::numeric[]", "'{infinity,-infinity}'::date[]"]
RANGES = [f"{text}::{type}" for type in ("int4range", "int8range", "numrange", "daterange", "tsrange", "tstzrange")
          for text in ("NULL", "'empty'", "'(,)'")]
RANGES += ["'[1,1]'::int4range", "'[-2147483648,2147483647)'::int4range", "'(,5]'::int4range", "'[5,)'::int4range",
           "'[-infinity,infinity]'::daterange", "'[,infinity]'::tsrange", "'[0,NaN]'::numrange",
           "'[4714-11-24 BC,5874897-12-31)'::daterange", "'[-9223372036854775808,)'::int8range"]
# Ranges with their element types.
OF_ELEMENTS = {"int4range": "int4", "numrange": "numeric", "daterange": "date", "tsrange": "timestamp"}
# Arguments that are kept within a limit.
LIMITED = {
    "number": ["-2147483648", "-1", "0", "1", "2", "2147483647"], "length": ["0", "1", "2147483647"],
    "field": ["-2147483648", "-1", "1", "2", "2147483647"], "short": ["-2147483648", "-1", "0", "1", "2", "1000"],
    "like": ["''", "'%'", "'_'", "'a%'", "'\\%'", "'\\\\'"],
    "regex": ["''", "'^a'", "'(a|b)*$'", "'[[:alpha:]]+'", "'(.)\\1'", "'(?i)A'"],
    "size": ["5", "7", "104"], "explicit": ["true"], "zone": ["'UTC'", "'Europe/Berlin'", "'America/New_York'"]}
