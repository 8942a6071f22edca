"""Filters with functions that judge derives: a comparison of the result becomes a comparison of the column itself. The
rows have all extreme values."""

from judged.forms import DATES, LARGE, MIDDLE, SMALL, TEXTS, TIMES, Group, pairs, values

MORE_DATES = [*DATES, "'4714-12-01 BC'", "'4713-01-01 BC'", "'0001-12-30 BC'", "'2023-12-24'", "'2024-01-07'", "'2024-01-08'",
              "'2024-03-31'", "'2024-04-01'", "'2024-12-31'", "'2025-01-01'", "'294276-12-31'", "'-infinity'"]
STAMPS = [*TIMES, "'4713-01-01 00:00:00 BC'", "'4714-12-31 23:59:59.999999 BC'", "'0001-12-31 23:59:59.999999 BC'",
          "'0001-01-01 00:00:00'", "'2023-12-25 00:00:00'", "'2024-01-07 23:59:59.999999'", "'2024-01-31 23:59:59.999999'",
          "'2024-02-01 00:00:00'", "'2024-03-31 23:59:59'", "'2024-04-01 00:00:00'", "'2024-12-31 23:59:59.999999'",
          "'2025-01-01 00:00:00'", "'2024-01-01 09:59:59.999999'", "'2024-01-01 10:00:00'"]
# The value to which the last timestamp that the server reads is rounded.
LAST, LAST_IN_UTC = "'294276-12-31 23:59:59.999999'::timestamp(0)", "'294276-12-31 23:59:59.999999+00'::timestamptz(0)"
ADDRESSES = ["NULL", "'0.0.0.0'", "'0.0.0.0/0'", "'10.0.0.0'", "'10.0.0.0/8'", "'10.0.0.1/8'", "'10.255.255.255'",
             "'10.255.255.255/8'", "'10.0.0.0/9'", "'10.128.0.0/9'", "'9.255.255.255'", "'11.0.0.0/8'", "'11.0.0.0'",
             "'10.1.2.3/31'", "'10.1.2.2'", "'10.1.2.3'", "'255.255.255.255'", "'255.255.255.255/0'", "'::'", "'::/0'", "'::1/64'",
             "'::ffff'", "'ffff:ffff:ffff:ffff:ffff:ffff:ffff:ffff'"]
SPANS = ["NULL", "'0'", "'1 mon'", "'30 days'", "'720 hours'", "'-1 day'", "'1 day -24:00'", "'00:00:00.000001'", "'1 year'",
         "'23:59:59.999999'", "'24 hours'", "'1 day'", "'-00:00:00.000001'", "'360 days'"]
LETTERS = [*TEXTS, "'abc'", "'abd'", "'abcd'", "'ab '", "'ac'", "'aB'", "'eu'", "'eu-'", "'eu-1'", "'eu.'", "'eu-\uFFFF'", "'m'", "'mm'",
           "'n'", "'a_b'", "'a%b'", "E'a\\\\b'", "'ü'", "'üb'", "'\uD7FF'", "'\uE000'", "U&'\\+10FFFF'", "U&'\\+10FFFFa'", "U&'eu-\\FFFE'", "U&'\\FDD0'", "'a\u0001'"]
pairs_of_four = [f"({b}, {f}, {d}, {t})" for b in ("9007199254740993", "9007199254740992", "5") for f in ("9007199254740992", "5.5")
                 for d, t in (("'2024-01-01'", "'2024-01-01'"), ("'2024-01-01'", "'2024-01-01 12:00'"), ("'infinity'", "'infinity'"))]
DERIVED = [
    Group("d date, e date", [*values(MORE_DATES, MORE_DATES)], [
        *(f"extract(year FROM d) {op} {number}" for op in ("=", "<", "<=", ">", ">=", "<>")
          for number in (2024, -1, 1, 0, -4714, -4713, "2023.5", 294277)),
        "extract(year FROM d) IN (2023, 2024)", "extract(year FROM d) BETWEEN 2000 AND 2023", "extract(year FROM d) < 'Infinity'",
        "extract(year FROM d) = 'Infinity'", "extract(year FROM d) <= '-Infinity'", "extract(year FROM d) < 'NaN'",
        "extract(year FROM d) = 'NaN'", "extract(year FROM d) IS NULL", "extract(year FROM d) IS DISTINCT FROM 2024",
        "extract(month FROM d) <= 6", "extract(month FROM d) > 6", "extract(month FROM d) IN (1, 2, 3)",
        "extract(month FROM d) IS NULL", "extract(dow FROM d) IN (0, 6)", "extract(dow FROM d) BETWEEN 1 AND 5",
        "extract(isodow FROM d) < 6", "extract(quarter FROM d) = 1", "extract(day FROM d) > 15", "extract(doy FROM d) < 100",
        "extract(week FROM d) % 2 = 0", "extract(century FROM d) = 21", "extract(decade FROM d) < 202",
        "extract(isoyear FROM d) = 2024", "extract(month FROM d) = 6.5", "extract(month FROM d) < 13",
        "extract(epoch FROM d) > 1700000000", "extract(julian FROM d) > 2460000", "extract(month FROM d)::integer % 3 = 1",
        "extract(year FROM d) % 2 = 0", "extract(year FROM d) = extract(year FROM e)", "coalesce(extract(month FROM d), 0) = 0",
        "greatest(extract(year FROM d), 2000) = 2000", "nullif(extract(year FROM d), 2024) > 2000",
        "d <@ '[2024-01-01,2025-01-01)'::daterange", "'(2024-01-01,2024-12-31]'::daterange @> d", "d <@ '(,2024-01-01)'::daterange",
        "d <@ '[2024-01-01,)'::daterange", "d <@ '(,)'::daterange", "d <@ 'empty'::daterange", "d <@ '[-infinity,infinity]'::daterange",
        "d <@ daterange('2024-01-01', '2025-01-01')", "(d <@ '[2024-01-01,2025-01-01)'::daterange) IS NULL",
    ]),
    Group("d date", [f"({it})" for it in MORE_DATES if "infinity" not in it and "58748" not in it and "4714" not in it and "294276" not in it], [
        "d + 30 > '2024-01-30'", "d - 7 <= '2024-01-01'", "d + 1 = '2024-01-01'", "d - '2023-12-31'::date > 0",
        "d - '2000-01-01'::date <= 8765.5", "d - '2024-01-01'::date = 0", "(d - '2000-01-01'::date) % 7 = 0",
        "d::timestamp < '2024-01-01 00:00:01'", "d::timestamp = '2024-01-01'", "d::timestamp <= '2023-12-31 23:59:59'",
        "d::timestamp = '2024-01-01 00:00:01'", "date_trunc('month', d::timestamp) = '2024-01-01'",
        "date_trunc('year', d::timestamp)::date = '2024-01-01'", "date_trunc('year', d::timestamp)::date < '2024-06-01'",
        "date_trunc('quarter', d::timestamp)::date >= '2024-04-01'", "date_part('year', d) = 2024", "date_part('year', d) < 0",
        "date_part('month', d) = 1", "date_part('month', d) > 6", "date_part('dow', d) IN (0, 6)", "(d + 30)::timestamp < '2024-01-31'",
        "d + interval '1 month' > '2024-01-01'",
    ]),
    Group("t timestamp, z timestamptz, s timestamp(0)", values(STAMPS, STAMPS, [it for it in STAMPS if "294276" not in it]), [
        *(f"extract(year FROM t) {op} {number}" for op in ("=", "<", ">=") for number in (2024, -1, 0, "2023.5")),
        "date_part('year', t) = 2024", "date_part('year', t) < 2024.5", "date_part('month', t) <= 6", "extract(hour FROM t) < 12",
        "extract(hour FROM t) BETWEEN 0 AND 23", "extract(minute FROM t) = 0", "extract(second FROM t) < 30",
        "extract(hour FROM t) IS NULL", "extract(year FROM s) > 2023",
        "extract(year FROM z AT TIME ZONE 'UTC') = 2024", "extract(hour FROM z AT TIME ZONE 'UTC') < 12",
        "extract(dow FROM z AT TIME ZONE 'UTC') = 0",
        *(f"date_trunc('{unit}', t) {op} '2024-01-01'" for unit in ("second", "minute", "hour", "day", "week") for op in ("=", "<", "<=")),
        "date_trunc('hour', t) = '2024-01-01 09:00:00'", "date_trunc('hour', t) < '2024-01-01 09:30:00'",
        "date_trunc('hour', t) = '2024-01-01 09:30:00'", "date_trunc('week', t) >= '2024-01-03'", "date_trunc('day', t) = 'infinity'",
        "date_trunc('day', t) < 'infinity'", "date_trunc('day', t) > '-infinity'", "date_trunc('day', t) IS NULL",
        "date_trunc('day', t)::date = '2024-01-01'", "date_trunc('day', t)::date <= '2024-01-06'",
        "t <@ '[2024-01-01,2024-02-01)'::tsrange", "t <@ '[2024-01-01,2024-01-31 23:59:59.999999]'::tsrange",
        "z <@ '[\"2024-01-01 00:00+00\",\"2024-02-01 00:00+00\")'::tstzrange", "date_trunc('day', t) = date_trunc('day', s)",
    ]),
    Group("t timestamp", [f"({it})" for it in STAMPS if "4714" not in it and "294276" not in it], [
        *(f"date_trunc('{unit}', t) {op} '{day}'" for unit in ("month", "quarter", "year") for op in ("=", "<", "<=", "<>")
          for day in ("2024-01-01", "2024-02-15", "0001-01-01")),
        "date_trunc('year', t) IN ('2023-01-01', '2024-01-01')", "t + interval '1 day' < '2024-01-02'", "t - interval '1 hour' >= '2024-01-01'",
        "t + interval '24 hours' = '2024-01-02'",
    ]),
    Group("t timestamp, z timestamptz, s timestamp(0), d date", values(
        [*STAMPS, LAST], [*STAMPS, LAST_IN_UTC], [*STAMPS, LAST], ["NULL", "'294276-12-31'", "'294277-01-01'", "'294277-01-02'", "'infinity'"])
        + [f"({LAST}, NULL, {LAST}, {day})" for day in ("'294276-12-31'", "'294277-01-01'", "'294277-01-02'", "'infinity'")], [
        *(f"{column} {op} '294276-12-31 23:59:59.999999'" for column in "ts" for op in ("=", "<", "<=", ">")),
        *(f"{column} {op} 'infinity'" for column in "tsz" for op in ("=", "<", ">=")),
        *(f"{column} {op} date '{day}'" for column in "ts" for op in ("=", "<", "<=") for day in ("294276-12-31", "294277-01-01", "294277-01-02")),
        *(f"t::date {op} '{day}'" for op in ("=", "<", "<=") for day in ("294276-12-31", "294277-01-01", "294277-01-02")),
        *(f"d {op} timestamp '294276-12-31 23:59:59.999999'" for op in ("=", "<", "<=")),
        "z <= '294276-12-31 23:59:59.999999+00'", "z > '294276-12-31 23:59:59.999999+00'", "extract(year FROM t) <= 294276",
        "extract(year FROM t) = 294277", "extract(year FROM s) > 294276.5", "extract(month FROM t) = 1", "isfinite(t)", "isfinite(z)",
        "t <@ '(,\"294276-12-31 23:59:59.999999\"]'::tsrange", "t <@ '[2024-01-01,)'::tsrange", "t <@ '[2024-01-01,infinity)'::tsrange",
        *(f"t {op} {LAST}" for op in ("=", "<", "<=")), f"s >= {LAST}", f"z < {LAST_IN_UTC}", f"d < {LAST}", f"d >= {LAST}",
        "s = '2023-12-31 23:59:59.5'::timestamp(0)", "t = s", "t < s", "t < d", "t = d", "d < s", "greatest(t, '294276-12-31 23:59:59.999999') = t",
    ]),
    Group("t timestamp, s timestamp(0)", values([LAST, "'294276-12-31 23:59:59.999999'", "'294276-12-31 00:00:00'", "'294276-12-30'", "'infinity'"],
                                                [LAST, "'294276-12-31 23:59:59'", "NULL"]), [
        "t - interval '1 day' < '294276-12-31'", "t - interval '1 day' = '294276-12-31'", "s - interval '1 second' > '294276-12-31 23:59:58'",
        "t - interval '1 microsecond' = '294276-12-31 23:59:59.999999'", "t - interval '1 day 1 hour' < '294276-12-30'",
    ]),
    Group("t text, v varchar(4), c char(4)", values(LETTERS, [it for it in LETTERS if len(it) < 7 and "E'" not in it and "U&" not in it],
                                                   ["NULL", "''", "'a'", "'ab'", "'abc'", "'b'", "'eu-1'"]), [
        "t LIKE 'a%'", "t NOT LIKE 'ab%'", "t LIKE 'eu-%'", "t LIKE 'abc'", "t LIKE '%'", "t LIKE '%%'", "t LIKE ''",
        "t LIKE 'a\\_%'", "t LIKE 'a\\%%'", "t LIKE 'a!%%' ESCAPE '!'", "t LIKE 'ü%'", "t LIKE '\uD7FF%'", "t LIKE U&'\\+10FFFF%'", "t LIKE U&'eu-\\FFFE%'", "t <= U&'\\FDD0'", "t = U&'\\+10FFFF'", "left(t, 1) < U&'\\+10FFFF'",
        "t LIKE '%b'", "t LIKE 'a_'", "t LIKE 'a%b'", "t ^@ 'eu'", "starts_with(t, 'ab')", "starts_with(t, '')", "NOT t ^@ 'a'",
        "left(t, 2) = 'ab'", "left(t, 2) = 'a'", "left(t, 2) = 'abc'", "left(t, 2) <> 'eu'", "left(t, 1) < 'n'", "left(t, 1) <= 'm'",
        "left(t, 1) > 'a'", "left(t, 1) BETWEEN 'a' AND 'm'", "left(t, 1) IN ('a', 'b', 'e')", "left(t, 2) < 'abc'",
        "left(t, 2) <= 'abc'", "left(t, 2) >= 'a'", "left(t, 2) <= 'a'", "left(t, 2) = ''", "left(t, 0) = ''", "left(t, -1) = 'a'",
        "left(t, 1) = 'ü'", "left(t, 1) < 'ü'", "left(t, 1) IS NULL", "left(t, 3) = v", "lower(left(t, 1)) = 'a'",
        "substr(t, 1, 2) = 'ab'", "substring(t, 1, 1) < 'm'", "substring(t FROM 1 FOR 3) = 'abc'", "substr(t, 2, 1) = 'b'",
        "left(t, 1) COLLATE \"C\" < 'n'", "left(t, 1) COLLATE \"POSIX\" <= 'm'", "v LIKE 'ab%'", "v ^@ 'eu'", "left(v, 1) = 'a'",
        "left(v, 2) < 'b'", "v = 'abcde'::varchar(2)", "t = 'abcde'::varchar(3)", "c = 'abc'::char(2)", "c LIKE 'a%'", "left(c, 1) = 'a'", "left(c, 2) = 'ab'", "t LIKE 'a%' AND t <> 'ab'",
        "t LIKE ANY (ARRAY['a%', 'eu%'])", "t LIKE ALL (ARRAY['a%', 'ab%'])", "coalesce(t, '') LIKE 'a%'", "left(coalesce(t, 'ab'), 1) = 'a'",
        "lower(coalesce(t, '')) = 'a'", "length(coalesce(t, v)) = 1",
    ]),
    Group("q inet, n cidr, m macaddr", values(ADDRESSES, ["NULL", "'0.0.0.0/0'", "'10.0.0.0/8'", "'10.0.0.0/9'", "'11.0.0.0/8'", "'::/0'",
                                                        "'10.1.2.3/32'"], ["NULL", "'00:00:00:00:00:00'", "'08:00:2b:01:02:03'",
                                                                          "'08:00:2b:01:02:04'", "'ff:ff:ff:ff:ff:ff'"]), [
        *(f"q {op} '{net}'" for op in ("<<", "<<=", "<", "<=", "=", ">>", "&&") for net in ("10.0.0.0/8", "10.0.0.1/8", "0.0.0.0/0", "10.1.2.3",
                                                                                          "255.255.255.255", "::/0", "::1/64", "10.0.0.0/9")),
        "'10.0.0.0/8' >> q", "'10.0.0.0/8'::inet >>= q", "NOT q << '10.0.0.0/8'", "q <<= ANY ('{10.0.0.0/9,11.0.0.0/8}'::inet[])",
        "q BETWEEN '10.0.0.0' AND '10.0.0.255'", "family(q) = 4", "family(q) <> 4", "family(q) > 4", "family(q) = 5", "family(q) < 9",
        "q IN ('10.0.0.0', '::')", "n <<= '10.0.0.0/8'", "n << '10.0.0.0/8'", "n = '10.0.0.0/8'", "n > '10.0.0.0/8'", "family(n) = 4",
        "masklen(n) < 9", "q = n", "q < n", "q << n", "host(q) = '10.0.0.0'", "m < '08:00:2b:01:02:04'", "m = '08:00:2b:01:02:03'",
        "m >= '80:00:00:00:00:00'", "m IN ('00:00:00:00:00:00')",
    ]),
    Group("i interval, j interval, l pg_lsn, c time, y bit(3)", values(SPANS, SPANS, ["NULL", "'0/0'", "'0/100'", "'0/101'", "'FFFFFFFF/FFFFFFFF'"], [
        "NULL", "'00:00:00'", "'11:59:59.999999'", "'12:00:00'", "'23:59:59.999999'", "'24:00:00'"], ["NULL", "B'000'", "B'001'", "B'111'"]), [
        "i > interval '1 day'", "i = interval '1 month'", "i <= interval '720 hours'", "i BETWEEN interval '0' AND interval '1 day'",
        "i < j", "i = j", "i IN ('1 day', '1 mon')", "i <> interval '24 hours'", "extract(epoch FROM i) > 3600", "extract(day FROM i) = 1",
        "extract(month FROM i) = 1", "-i < interval '0'", "i * 2 > interval '1 day'", "justify_days(i) > interval '1 month'", "l > '0/100'",
        "l = '0/0'", "l <= '0/100'", "l - '0/0'::pg_lsn > 100", "c < '12:00'", "extract(hour FROM c) < 12", "extract(hour FROM c) = 24",
        "extract(hour FROM c) > 23", "extract(minute FROM c) = 59", "date_part('hour', c) BETWEEN 0 AND 11", "c + interval '1 hour' > '12:00'",
        "y = B'001'", "y < B'111'", "(y & B'001') = B'001'", "coalesce(i, '0') = '0'", "greatest(i, '1 day') = '24:00'",
    ]),
    Group('y bit(3), v varbit, k "char"', values(["NULL", "B'000'", "B'001'", "B'100'", "B'111'"], ["NULL", "B''", "B'0'", "B'1'", "B'111'"],
                                                ["NULL", "''", "'a'", "'b'", "' '", "'~'"]), [
        "y IN (B'001', B'111')", "y NOT IN (B'001', B'100')", "y < ANY (ARRAY[B'001', B'100'])",
        "v < ANY ('{0,1}'::varbit[])", "k IN ('a', 'b')", "k < ANY ('{a,b}'::\"char\"[])", "k >= ALL ('{a,b}'::\"char\"[])",
    ]),
    Group("a integer, b bigint, c smallint, n numeric(12,2), f double precision", [
        *values(MIDDLE[:24], [it for it in LARGE if abs(int(it.replace("NULL", "0"))) < 30000], SMALL, ["NULL", "0", "0.5", "1.49", "-1.5", "99.99", "100", "'NaN'"],
                ["NULL", "0", "0.5", "1.5", "-2.5", "100"])], [
        "a <@ int4range(0, 100)", "int4range(1, 5) @> a", "a <@ '[1,5)'::int4range", "a <@ '(1,5]'::int4range", "n <@ '[0,100)'::numrange",
        "n <@ '(0.5,1.49]'::numrange", "n <@ '[0,NaN]'::numrange", "b <@ '[0,1000)'::int8range", "num_nulls(a, b) = 0", "num_nonnulls(a, b, c) > 1",
        "num_nonnulls(a, b) = 1", "b::integer > 5", "b::smallint = 1", "a::boolean", "NOT a::boolean", "floor(n) = 1", "round(n, 1) = 0.5",
        "f::integer = 2", "to_hex(a) = '1'", "floor(f) < 1", "gcd(c, 4) = 4", "div(n, 2) = 0", "mod(n, 5) = 0",
        "c::integer > 0",
    ]),
    Group("b bigint, f double precision, d date, t timestamp", values(
        ["NULL", "9007199254740991", "9007199254740992", "9007199254740993", "9007199254740994", "-9007199254740993", "5"],
        ["NULL", "9007199254740992", "5", "5.5"], ["NULL", "'2024-01-01'", "'2024-01-02'", "'infinity'"],
        ["NULL", "'2024-01-01'", "'2024-01-01 12:00'", "'infinity'"]) + pairs_of_four, [
        "b <= 9007199254740992::float8", "b = 9007199254740992::float8", "b > 9007199254740992::float8", "b < 5.5::float8", "b < f",
        "b = f", "b < f AND f <= 9007199254740992", "b <= f AND f <= 9007199254740992", "d < t", "d = t", "t <= d", "d < t AND t < '2024-01-02'",
    ]),
    Group("o boolean, p boolean", pairs(["NULL", "TRUE", "FALSE"], ["NULL", "TRUE", "FALSE"]), [
        "o < p", "o <= p", "o > p", "o >= p", "o < true", "o >= false", "o::text = 'true'", "o::text <> 'false'", "(o < p) IS NULL",
    ]),
    Group("r int4range, d daterange, a integer[], j jsonb", values(
        ["NULL", "'empty'", "'[1,10)'", "'(,5)'", "'[5,)'", "'(,)'", "'[5,6)'", "'[10,20)'"],
        ["NULL", "'empty'", "'[2024-01-01,2024-02-01)'", "'(,)'", "'[2024-06-01,infinity)'", "'(,2023-01-01)'"],
        ["NULL", "'{}'", "'{1}'", "'{1,2}'", "'{NULL}'", "'{{1,2},{3,4}}'"],
        ["NULL", "'{}'", "'{\"a\": 1}'", "'{\"a\": \"x\"}'", "'[1,2]'", "'null'", "'1'"]), [
        "lower(r) < 5", "upper(r) >= 10", "lower(r) IS NULL", "lower(r) % 4 = 1", "upper(r) - lower(r) > 5",
        "r = '[1,10)'", "r <> 'empty'", "r < '[5,6)'", "r >= '[5,6)'", "r && int4range(1, 5)", "r @> 5", "r &< '[1,10)'", "lower(d) < '2024-03-01'",
        "extract(year FROM lower(d)) = 2024", "extract(month FROM lower(d)) = 1", "upper(d) IS NULL", "a = '{1,2}'", "a <> '{}'", "a < '{1,2}'", "a >= '{1}'",
        "array_upper(a, 1) = 2", "array_dims(a) = '[1:1]'", "j = '{}'", "j <> '[1,2]'", "j > '{}'", "jsonb_strip_nulls(j) = '{}'", "j ->> 'a' LIKE 'x%'",
        "j @@ '$.a == 1'", "j @? '$.a'",
    ]),
]
