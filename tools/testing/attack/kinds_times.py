"""Dates, times and intervals."""

from .kinds import ANY, ORDERED, Kind

DATES = (
    "'-infinity'", "'4714-11-24 BC'", "'0001-12-31 BC'", "'0001-01-01'", "'1999-12-31'", "'2000-01-01'", "'2023-12-31'",
    "'2024-01-01'", "'2024-02-29'", "'5874897-12-31'", "'infinity'", "'294277-01-01'", "'294276-12-31'")
MOMENTS = (
    "'-infinity'", "'4714-11-24 00:00:00 BC'", "'1999-12-31 23:59:59.999999'", "'2000-01-01 00:00:00'",
    "'2023-12-31 23:59:59.999999'", "'2024-01-01 00:00:00'", "'2024-01-01 00:00:00.000001'", "'2024-02-29 12:00:00'",
    "'294276-12-31 23:59:59.999999'", "'infinity'", "'2024-03-31 02:30:00'", "'1969-12-31 23:59:59.5'")
# The last timestamps of all, which can only be obtained by rounding.
LAST = "'294276-12-31 23:59:59.999999'::timestamp(0)"
LAST_IN_UTC = "'294276-12-31 23:59:59.999999 UTC'::timestamptz(0)"
PARTS = (
    "year", "month", "day", "dow", "isodow", "doy", "quarter", "week", "isoyear", "century", "decade", "millennium",
    "epoch", "julian")
CLOCKS = ("hour", "minute", "second", "microseconds", "milliseconds")
DATE = (
    "extract(year FROM {c}) {op} 2024", "extract(year FROM {c}) BETWEEN -1 AND 2023", "extract(month FROM {c}) BETWEEN 1 AND 6",
    "extract(month FROM {c}) > 6 AND {c} {op} {k}", "date_part('year', {c}) {op} 2024", "{c} <@ '[2024-01-01,2024-02-29)'::daterange",
    "{c} <@ '(,2024-01-01]'::daterange", "daterange({k}, 'infinity') @> {c}", "date_trunc('year', {c}::timestamp)::date {op} {k}",
    "extract(year FROM {c})::integer {op} 2023", "extract(quarter FROM {c})::integer % 2 = 0",
    *(f"extract({it} FROM {{c}}) {{op}} {{m}}" for it in PARTS), "date_part('year', {c}) {op} 2000",
    "date_part('month', {c}) {op} {m}", "date_part('year', {c}) IS NULL", "extract(year FROM {c}) IS NULL",
    "isfinite({c})", "NOT isfinite({c})", "{c} + {m} {op} {k}", "{c} - {m} {op} {k}",
    "{c} - date '2024-01-01' {op} {r}",
    "{c} - {d} {op} {r}", "{c}::timestamp {op} '2024-01-01'", "{c} {op} timestamp '2024-01-01 12:00'",
    "{c} + interval '1 month' {op} '2024-02-01'", "{c} + time '12:00' {op} '2024-01-01 12:00'",
    "extract(year FROM {c}) % 2 = 0", "({c}, {c}) OVERLAPS (date '2024-01-01', date '2024-02-01')",
    "age({c}::timestamp, '2024-01-01') {op} interval '1 day'", "date_trunc('month', {c}::timestamp) {op} '2024-01-01'")
MOMENT = (
    "isfinite({c})", "NOT isfinite({c})", "{c} + interval '1 day' {op} {k}", "{c} - interval '1 month' {op} {k}",
    "{c} {op} {d}", "{c} - {d} {op} interval '1 day'", "({c}, {d}) OVERLAPS ({k}, {l})")
STAMP = (
    *(f"date_trunc('{it}', {{c}}) {{op}} {{k}}" for it in ("second", "hour", "day", "week", "month", "quarter", "year", "decade")),
    "date_trunc('week', {c}) {op} '2024-01-01'", "date_trunc('day', {c})::date {op} '2024-01-01'",
    "{c} <@ '[2024-01-01,2024-02-29 12:00)'::tsrange", "{c} <@ '[2024-01-01,infinity]'::tsrange", "{c} + interval '36 hours' {op} {k}",
    "extract(year FROM {c}) {op} 2024 AND {c} {op} {k}", "extract(hour FROM {c}) BETWEEN 0 AND 11", "extract(minute FROM {c}) {op} 30",
    *(f"extract({it} FROM {{c}}) {{op}} {{m}}" for it in (*PARTS, *CLOCKS)),
    *(f"date_part('{it}', {{c}}) {{op}} {{m}}" for it in (*PARTS, *CLOCKS)),
    "{c}::date {op} '2024-01-01'", "{c}::date = ANY ('{{2024-01-01,infinity}}')", "{c}::time {op} '12:00'",
    "date_trunc('month', {c}) {op} '2024-01-01'", "date_trunc('day', {c}) = {c}",
    "{c} AT TIME ZONE 'UTC' {op} '2024-01-01 UTC'",
    "{c} AT TIME ZONE 'Europe/Berlin' {op} '2024-01-01 UTC'", "date_bin('1 day', {c}, '2024-01-01') {op} '2024-01-01'",
    "{c} {op} date '2024-01-01'", "{c} - timestamp '2024-01-01' {op} interval '1 day'", "{c}::timestamp(0) {op} {k}",
    "extract(hour FROM {c}) IS NULL", "age({c}, '2024-01-01') {op} interval '1 day'",
    "{c}::date - date '2024-01-01' {op} {r}")
STAMPTZ = (
    "{c} AT TIME ZONE 'UTC' {op} '2024-01-01'", "({c} AT TIME ZONE 'UTC')::date {op} '2024-01-01'",
    "{c} AT TIME ZONE 'Europe/Berlin' {op} '2024-01-01'", "extract(epoch FROM {c}) {op} 1704067200",
    "({c} AT TIME ZONE 'America/New_York')::date {op} '2024-01-01'",
    "extract(hour FROM {c} AT TIME ZONE 'UTC') {op} {m}",
    "date_trunc('month', {c} AT TIME ZONE 'UTC') {op} '2024-01-01'", "{c}::timestamptz(0) {op} {k}",
    "extract(year FROM {c} AT TIME ZONE 'UTC') {op} 2024", "({c} AT TIME ZONE 'UTC')::time {op} '12:00'",
    "{c} AT TIME ZONE INTERVAL '-01:00' {op} '2024-01-01'", "date_bin('1 hour', {c}, '2024-01-01 UTC') {op} {k}")
TIME = (
    *(f"extract({it} FROM {{c}}) {{op}} {{m}}" for it in (*CLOCKS, "epoch")), "date_part('hour', {c}) {op} {m}",
    "{c} + interval '1 hour' {op} {k}", "{c} - {d} {op} interval '1 hour'", "{c}::time(0) {op} {k}",
    "({c}, {d}) OVERLAPS ({k}, {l})", "{c}::interval {op} '12:00'")
INTERVAL = (
    "extract(month FROM {c}) {op} {m}", "extract(epoch FROM {c}) {op} 0", "isfinite({c})", "justify_days({c}) {op} {k}",
    "{c} * 2 {op} {k}", "-{c} {op} {k}", "{c} + interval '1 day' {op} {k}", "extract(day FROM {c}) {op} {m}",
    "date_part('hour', {c}) {op} {m}", "{c} / 2 {op} {k}", "date_trunc('day', {c}) {op} {k}", "{c}::time {op} '12:00'")

KINDS = [
    Kind("date", "date", DATES, (*ANY, *ORDERED, *DATE), (
        "extract(year FROM {c})::integer % {m}", "{c} - date '2024-01-01'", "extract(dow FROM {c})")),
    Kind("timestamp", "timestamp", (*MOMENTS, LAST), (*ANY, *ORDERED, *MOMENT, *STAMP), (
        "extract(month FROM {c})", "{c}::date - date '2024-01-01'")),
    Kind("seconds", "timestamp(0)", (*MOMENTS[1:-3], LAST), (*ANY, *ORDERED, *MOMENT, *STAMP)),
    Kind("timestamptz", "timestamptz", (
        *(f"{it[:-1]} UTC'" if "infinity" not in it else it for it in MOMENTS), LAST_IN_UTC), (
        *ANY, *ORDERED, *MOMENT, *STAMPTZ), ("extract(month FROM {c} AT TIME ZONE 'UTC')",)),
    Kind("time", "time", ("'00:00'", "'24:00'", "'23:59:59.999999'", "'12:00'", "'00:00:00.000001'", "'12:30'"), (
        *ANY, *ORDERED, *TIME), ("extract(hour FROM {c})",)),
    Kind("tenths", "time(1)", ("'00:00'", "'24:00'", "'23:59:59.9'", "'12:00'", "'00:00:00.1'"),
        (*ANY, *ORDERED, *TIME)),
    Kind("timetz", "timetz", ("'00:00+00'", "'24:00-15:59'", "'12:00+02'", "'10:00+00'", "'00:00+15:59'"), (
        *ANY, *ORDERED, "extract(hour FROM {c}) {op} {m}", "extract(timezone FROM {c}) {op} 0",
        "{c} AT TIME ZONE 'UTC' {op} {k}")),
    Kind("interval", "interval", (
        "'0'", "'1 mon'", "'30 days'", "'720 hours'", "'-1 day'", "'1 day -24:00'", "'178000000 years'", "'1 year'",
        "'-178000000 years'", "'00:00:00.000001'", "'1.5 days'"), (*ANY, *ORDERED, *INTERVAL),
        ("extract(month FROM {c})",)),
]
