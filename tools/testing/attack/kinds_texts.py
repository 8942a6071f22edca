"""Texts and similar types."""

from .kinds import ANY, ORDERED, Kind

WORDS = (
    "''", "'a'", "'A'", "'b'", "'B'", "'ab'", "'Ab'", "'aB'", "'a '", "' '", "'a b'", "'é'", "'ß'", "'%'", "'_'",
    "'a_b'",
    "'z'", "'İ'", "'1'", "'a,b'", "'a.b'", "E'a\\nb'", "E'\\\\'", "'あ'", "'a@b.c'")
SHORT = ("''", "'a'", "'A'", "'b'", "'ab'", "'abc'", "'a  '", "'é'", "'B'", "'z'", "'_'")
TEXT = (
    "{c} LIKE 'a%'", "{c} NOT LIKE 'a%'", "{c} LIKE '_'", "{c} LIKE ''", "{c} LIKE '%'", "{c} ILIKE 'A%'",
    "{c} NOT ILIKE '%b'", "{c} LIKE 'a\\_b'", "{c} LIKE 'a\\'", "{c} LIKE 'a!%' ESCAPE '!'", "{c} LIKE '%\\'",
    "{c} LIKE '%a%' AND {c} {op} {k}", "{c} ~ '^a'", "{c} ~* '^A'", "{c} !~ 'b$'", "{c} !~* 'B'", "{c} ~ '('",
    "{c} ~ '*@b'", "{c} ~ '[a'", "{c} ~ ''", "{c} ~ '(?i)a'", "{c} ~ 'a{{2,1}}'", "{c} ~ '^(a)\\1'",
    "{c} SIMILAR TO 'a|b'",
    "{c} NOT SIMILAR TO '(a|b)%'", "{c} ^@ 'a'", "starts_with({c}, 'a')", "starts_with({c}, {d})",
    "lower({c}) {op} {k}",
    "upper({c}) {op} {k}", "initcap({c}) {op} {k}", "length({c}) {op} {r}", "char_length({c}) {op} {m}",
    "octet_length({c}) {op} {m}", "bit_length({c}) {op} 16", "substr({c}, 1, 1) {op} {k}", "substr({c}, {r}) {op} {k}",
    "substring({c}, 1, {m}) {op} {k}", "substring({c} FROM '^.') {op} {k}", "substring({c} FROM '(a)|(') = 'a'",
    "left({c}, 1) {op} {k}", "left({c}, -1) {op} {k}", "right({c}, {r}) {op} {k}", "strpos({c}, 'a') {op} {r}",
    "position('a' IN {c}) {op} {r}", "position({d} IN {c}) {op} {r}", "split_part({c}, ',', 1) {op} {k}",
    "split_part({c}, ',', -1) {op} {k}", "split_part({c}, ',', {r}) {op} {k}", "replace({c}, 'a', 'b') {op} {k}",
    "translate({c}, 'ab', 'x') {op} {k}", "md5({c}) {op} 'a'", "md5({c}) LIKE 'a%'", "ascii({c}) {op} 97",
    "reverse({c}) {op} {k}", "btrim({c}) {op} {k}", "ltrim({c}, 'a') {op} {k}", "rtrim({c}) {op} {k}",
    "trim({c}) = ''", "repeat({c}, 2) {op} {k}", "lpad({c}, 2) {op} {k}", "rpad({c}, 2, 'x') {op} {k}",
    "{c} || 'a' {op} {k}", "{c} || {d} {op} {k}", "'a' || {c} {op} {k}", "{c} || {d} IS NULL",
    "{c} COLLATE \"C\" {op} {k}",
    "{c} COLLATE \"C\" < {k} AND {c} {op} {l}", "hashtext({c}) % 2 = 0", "hashtext({c}) {op} 0",
    "{c}::varchar(1) {op} {k}",
    "{c}::char(2) {op} {k}", "{c}::text {op} {k}", "{c}::text = 'a '", "{c}::bpchar {op} {k}", "{c}::name {op} {k}",
    "{c}::\"char\" {op} 'a'", "{c} = ANY ('{{a,B,NULL}}')", "{c} <> ALL ('{{a,b}}')", "{c} = ANY ('{{}}')",
    "{c} LIKE ANY ('{{a%,b%}}')", "{c} NOT LIKE ALL ('{{a%,NULL}}')", "{c} ~ ANY ('{{^a,^b}}')", "{c} LIKE {d}",
    "regexp_like({c}, '^a')", "regexp_count({c}, 'a') {op} {r}", "regexp_instr({c}, 'a') {op} {r}",
    "'a' = ANY (string_to_array({c}, ','))", "cardinality(string_to_array({c}, ',')) {op} {m}",
        "quote_literal({c}) {op} {k}",
    "quote_ident({c}) = {c}", "overlay({c} PLACING 'x' FROM 1) {op} {k}", "{c} ~<~ {k}", "{c} ~>=~ {k}",
        "chr(ascii({c})) {op} {k}",
    "normalize({c}) = {c}", "{c} IS NORMALIZED", "decode({c}, 'hex') = ''",
        "encode(decode({c}, 'escape'), 'hex') {op} {k}",
    "length(lower({c})) {op} {r}", "lower(left({c}, 1)) {op} {k}",
    "left({c}, 2) {op} 'ab'", "left({c}, {m}) {op} {k}", "substr({c}, 1, {m}) {op} {k}", "{c} LIKE 'ab%' AND {c} {op} {k}",
    "{c} ^@ 'ab' OR {c} {op} {k}", "left({c}, 1) BETWEEN {k} AND {l}", "left({c}, {m}) IN ('a', 'ab', 'A')",
    "left({c}, 1) COLLATE \"C\" {op} {k}", "{c} LIKE 'a%' AND {c} NOT LIKE 'ab%'", "coalesce({c}, {k}) LIKE 'a%'",
    "length(coalesce({c}, {k})) {op} {r}", "lower({c}) = 'a' AND {c} <> 'A'", "NOT starts_with({c}, 'A') AND {c} {op} {k}",
    "length({c}) % 2 = 0", "length({c}) - 1 {op} {r}",
    "coalesce(lower({c}), {k}) {op} {l}", "nullif(btrim({c}), '') IS NULL", "lower({c}) = lower({d})",
    "{c} = lower({c})",
    "lower({c}) BETWEEN 'a' AND 'b'", "lower({c}) IN ('a', 'b')", "upper({c}) NOT IN ('A')", "texteq({c}, 'a')",
    "textlike({c}, 'a%')", "lower({c} || {d}) {op} {k}", "ascii(left({c}, 1)) {op} 98",
    "to_ascii({c}, 'LATIN1') {op} {k}",
    "left({c}, ascii({c}) - 97) {op} {k}", "greatest(lower({c}), upper({c})) {op} {k}",
    "{c} COLLATE \"C\" {op} {d}", "{c} COLLATE \"en-x-icu\" {op} {k}", "{c} {op} {d} COLLATE \"C\"",
    "CASE WHEN {c} IS NULL THEN {d} ELSE {c} END {op} {k}", "lower({c}) COLLATE \"C\" {op} {k}",
    "lower({c} COLLATE \"C\") {op} {k}",
    "{c} COLLATE \"default\" {op} {k}", "least({c}, {d}) COLLATE \"C\" {op} {k}",

)
MEASURES = (
    "length({c})", "hashtext({c}) % {m}", "ascii({c}) % {m}", "octet_length({c}) % {m}", "strpos({c}, 'a')",
    "abs(hashtext({c}) % {m})", "hashtext(lower({c})) & {m}", "length({c}) % {m}")
COMMON = (*ANY, *ORDERED, *TEXT, *TEXT)
BYTES = (
    "length({c}) {op} {r}", "octet_length({c}) {op} {r}", "bit_length({c}) {op} 8", "md5({c}) {op} 'a'",
    "substr({c}, 1, 1) {op} {k}", "substring({c}, 2) {op} {k}", "get_byte({c}, 0) {op} 97", "get_bit({c}, 0) = 1",
    "encode({c}, 'hex') {op} 'a'", "encode({c}, 'escape') {op} 'a'", "position('\\x61'::bytea IN {c}) {op} {r}",
    "{c} || '\\x00' {op} {k}", "{c} LIKE '\\x61%'", "btrim({c}, '\\x00') {op} {k}", "sha256({c}) {op} {k}",
    "bit_count({c}) {op} {m}", "ltrim({c}, '\\x61') {op} {k}", "overlay({c} PLACING '\\x00' FROM 1) {op} {k}",
    "convert_from({c}, 'UTF8') {op} 'a'", "crc32({c}) {op} 0", "starts_with(encode({c}, 'hex'), '61')")

KINDS = [
    Kind("text", "text", WORDS, COMMON, MEASURES),
    Kind("text_c", 'text COLLATE "C"', WORDS, COMMON, MEASURES),
    Kind("text_posix", 'text COLLATE "POSIX"', WORDS, COMMON, MEASURES),
    Kind("text_icu", 'text COLLATE "en-x-icu"', WORDS, COMMON, MEASURES),
    Kind("text_de", 'text COLLATE "de-x-icu"', WORDS, COMMON, MEASURES),
    Kind("text_root", 'text COLLATE "und-x-icu"', WORDS, COMMON, MEASURES),
    Kind("text_ucs", 'text COLLATE "ucs_basic"', WORDS, COMMON, MEASURES),
    Kind("varchar", "varchar", WORDS, COMMON, MEASURES),
    Kind("varchar3", "varchar(3)", SHORT, COMMON, MEASURES),
    Kind("char3", "char(3)", SHORT, COMMON, MEASURES),
    Kind("char1", "char", ("''", "'a'", "'A'", "'b'", "'é'", "' '", "'z'"), COMMON, MEASURES),
    Kind("char_icu", 'char(3) COLLATE "en-x-icu"', SHORT, COMMON, MEASURES),
    Kind("bpchar", "bpchar", SHORT, COMMON, MEASURES),
    Kind("name", "name", ("''", "'a'", "'A'", "'b'", "'ab'", "'é'", f"'{'a' * 63}'"), COMMON, MEASURES),
    Kind("single", '"char"', ("''", "'a'", "'A'", "'b'", "'1'"), (
        *ANY, *ORDERED, "{c}::text {op} 'a'", "{c}::integer {op} 97", "ascii({c}::text) {op} 97")),
    Kind("uuid", "uuid", (
        "'00000000-0000-0000-0000-000000000000'", "'ffffffff-ffff-ffff-ffff-ffffffffffff'",
        "'80000000-0000-0000-0000-000000000000'", "'7fffffff-ffff-ffff-ffff-ffffffffffff'",
        "'a0eebc99-9c0b-4ef8-bb6d-6bb9bd380a11'", "'00000000-0000-0000-0000-000000000001'"), (
        *ANY, *ORDERED, "uuid_hash({c}) % {m} {op} {r}",
        "{c} = ANY ('{{a0eebc99-9c0b-4ef8-bb6d-6bb9bd380a11,NULL}}')"), (
        "uuid_hash({c}) % {m}", "abs(uuid_hash({c}) % {m})")),
    Kind("bytea", "bytea", ("''", "'\\x00'", "'\\x61'", "'\\x6162'", "'\\xff'", "'\\x5c'", "'\\x4142'"), (
        *ANY, *ORDERED, *BYTES), ("length({c})",)),
]
