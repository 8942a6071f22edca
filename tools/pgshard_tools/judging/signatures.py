"""What judge adds to the server's descriptions of functions and operators, by signature. Each row is tested on a
server.

A function without a row may be NULL for any arguments, or may depend on the settings of a session although the server
calls it immutable; so nothing is read of it.
"""

from dataclasses import dataclass


@dataclass(frozen=True)
class Row:
    """What judge adds about a function for arguments within its limits."""

    # Whether it is NULL exactly if an argument is, or if it fails. If not, it may also be NULL otherwise.
    is_total: bool = True
    # What an argument has to be, by its place: a name in functions.LIMITS.
    limits: tuple[tuple[int, str], ...] = ()
    # Whether it fails for some arguments.
    fails: bool = False
    # Whether it may be read with arguments beyond its limits, for which it may fail. If not, it is not read then.
    fails_past_limits: bool = False
    # For a function that is not strict, the arguments that make it NULL if they are; the others are constants that are
    # not NULL.
    null_at: tuple[int, ...] = ()


TOTAL, MAYBE_NULL = Row(), Row(is_total=False)
FAILS, FAILS_OR_NULL = Row(fails=True), Row(is_total=False, fails=True)
PART = Row(limits=((0, "part"),))
LIKE = Row(limits=((1, "like"),), fails_past_limits=True)
PATTERN = Row(limits=((1, "regex"),), fails_past_limits=True)
PATTERN_OR_NULL = Row(False, limits=((1, "regex"),), fails_past_limits=True)
CUT = Row(limits=((1, "number"), (2, "length")), fails_past_limits=True)
FIELD = Row(limits=((2, "field"),), fails_past_limits=True)
SHORT = Row(limits=((1, "short"),), fails_past_limits=True)
CODE = Row(limits=((1, "code"),), fails_past_limits=True)
ZONE = Row(limits=((0, "zone"),), fails=True)
ARRAYS = Row(limits=((0, "array"), (1, "array")))
ARRAY = Row(limits=((0, "array"),))
HASHED = ("int2", "int4", "int8", "float4", "float8")
RANGE_KINDS = ("anyrange", "anymultirange")
ENDS = ("isempty", "lower_inc", "upper_inc", "lower_inf", "upper_inf")
SHAPES = ("box", "circle", "polygon")


def rows(row: Row, *texts: str) -> dict[str, Row]:
    """Returns a row for each signature. Each text has names, and the types of the arguments."""
    found: dict[str, Row] = {}
    for text in texts:
        names, _, types = text.partition("(")
        found |= {f"{name}({types}": row for name in names.split()}
    return found


FUNCTIONS: dict[str, Row] = {
    # Texts.
    **rows(TOTAL, "lower upper initcap md5 btrim ltrim rtrim reverse length char_length character_length octet_length "
           "bit_length hashtext quote_literal(text)", "btrim ltrim rtrim strpos position starts_with(text,text)",
           "left right substr substring(text,int4)", "translate replace(text,text,text)", "hashtextextended(text,int8)",
           "length char_length character_length octet_length hashbpchar(bpchar)",
           "hashname(name)", "textlen(text)"),
    **rows(CUT, "substr substring(text,int4,int4)"),
    **rows(FIELD, "split_part(text,text,int4)"),
    **rows(SHORT, "lpad rpad(text,int4)", "lpad rpad(text,int4,text)"),
    **rows(PATTERN, "regexp_count regexp_like regexp_instr(text,text)", "regexp_replace(text,text,text)"),
    **rows(PATTERN_OR_NULL, "regexp_match regexp_substr substring(text,text)"),
    **rows(FAILS, "ascii(text)", "chr(int4)", "repeat(text,int4)", "regexp_replace(text,text,text,text)",
           "regexp_count(text,text,int4)", "regexp_like(text,text,text)", "overlay(text,text,int4)",
           "overlay(text,text,int4,int4)", "unistr(text)",
           "to_tsvector to_tsquery plainto_tsquery phraseto_tsquery websearch_to_tsquery(regconfig,text)"),
    **rows(FAILS_OR_NULL, "regexp_match(text,text,text)"),
    **rows(Row(limits=((1, "code"),), fails=True), "decode(text,text)"),
    **rows(Row(limits=((1, "form"),), fails=True), "normalize is_normalized(text,text)"),
    **rows(Row(null_at=(0,)), "string_to_array(text,text)"),
    # Bytes and bits.
    **rows(TOTAL, "length octet_length md5 bit_length bit_count sha224 sha256 sha384 sha512(bytea)",
           "substr substring(bytea,int4)", "position(bytea,bytea)", "btrim ltrim rtrim(bytea,bytea)",
           "length octet_length bit_length bit_count(bit)"),
    **rows(Row(limits=((1, "number"), (2, "length")), fails_past_limits=True), "substr substring(bytea,int4,int4)"),
    **rows(CODE, "encode(bytea,text)"),
    **rows(FAILS, "get_byte(bytea,int4)", "get_bit(bytea,int8)", "get_bit(bit,int4)", "int4 int8(bit)"),
    # Hash functions.
    **{f"hash{it}({it})": TOTAL for it in HASHED},
    **{f"hash{it}extended({it},int8)": TOTAL for it in HASHED},
    **rows(TOTAL, "uuid_hash(uuid)", "uuid_hash_extended(uuid,int8)", "hash_numeric(numeric)",
           "hash_numeric_extended(numeric,int8)", "timestamp_hash(timestamp)", "time_hash(time)", "jsonb_hash(jsonb)",
           "hashinet(inet)", "hashmacaddr(macaddr)", "interval_hash(interval)", "hashchar(char)",
           "hash_range(anyrange)"),
    # Times.
    **rows(TOTAL, "isfinite(date)", "isfinite(timestamp)", "isfinite(timestamptz)", "isfinite(interval)", "time(interval)",
           "interval(time)"),
    **rows(MAYBE_NULL, "time(timestamp)"),
    **rows(PART, "extract(text,time)", "extract(text,interval)", "date_part(text,time)", "date_part(text,interval)"),
    **rows(Row(limits=((0, "part_or_null"),), is_total=False), "extract(text,date)", "extract(text,timestamp)",
           "date_part(text,timestamp)"),
    **rows(Row(limits=((0, "part_or_null"),), is_total=False, fails=True), "date_part(text,date)"),
    **rows(Row(limits=((0, "unit"),), fails=True), "date_trunc(text,timestamp)", "date_trunc(text,interval)"),
    **rows(FAILS, "date_bin(interval,timestamp,timestamp)",
           "date_bin(interval,timestamptz,timestamptz)", "timestamp(date)", "timestamp(date,time)",
           "age(timestamp,timestamp)", "justify_days justify_hours justify_interval(interval)",
           "make_date(int4,int4,int4)", "timezone(text,timestamp)",
           "timezone(interval,timestamp)", "timezone(interval,timestamptz)", "to_timestamp(float8)", "date(timestamp)"),
    **rows(ZONE, "timezone(text,timestamptz)"),
    # JSON.
    **rows(TOTAL, "jsonb_typeof jsonb_strip_nulls jsonb_pretty(jsonb)", "json_typeof(json)"),
    **rows(FAILS, "jsonb_array_length(jsonb)", "json_array_length(json)", "json_strip_nulls(json)",
           "bool int2 int4 int8 numeric float4 float8(jsonb)", "jsonb_set(jsonb,_text,jsonb,bool)",
           "jsonb_path_query_array(jsonb,jsonpath,jsonb,bool)"),
    **rows(MAYBE_NULL, "jsonb_extract_path jsonb_extract_path_text(jsonb,_text)"),
    **rows(FAILS_OR_NULL, "json_extract_path json_extract_path_text(json,_text)",
           "jsonb_path_exists jsonb_path_match(jsonb,jsonpath,jsonb,bool)", "jsonb_path_query_first(jsonb,jsonpath,jsonb,bool)"),
    # Arrays.
    **rows(TOTAL, "cardinality(anyarray)"),
    **rows(Row(False, fails=True, null_at=(0,)), "array_position(anycompatiblearray,anycompatible)"),
    **rows(Row(fails=True, null_at=(0,)), "array_remove(anycompatiblearray,anycompatible)"),
    **rows(MAYBE_NULL, "array_ndims array_dims(anyarray)", "array_length array_upper array_lower(anyarray,int4)"),
    # Ranges.
    **{f"{name}({it})": MAYBE_NULL for it in RANGE_KINDS for name in ("lower", "upper")},
    **{f"{name}({it})": TOTAL for it in RANGE_KINDS for name in ENDS},
    **rows(TOTAL, "range_merge(anyrange,anyrange)"),
    # Networks.
    **rows(TOTAL, "family masklen host network netmask hostmask broadcast abbrev text(inet)", "abbrev(cidr)",
           "inet_same_family(inet,inet)", "trunc(macaddr)"),
    **rows(FAILS, "set_masklen(inet,int4)", "set_masklen(cidr,int4)", "inet_merge(inet,inet)"),
    # Numbers.
    **rows(TOTAL, "abs sign trunc round floor ceil ceiling trim_scale(numeric)", "abs(float4)",
           "abs sign floor ceil ceiling round trunc cbrt(float8)", "atan sinh cosh tanh asinh(float8)",
           "to_hex(int4)", "to_hex(int8)", "float4 float8(int4)", "float4 float8(int8)", "float8(float4)"),
    **rows(MAYBE_NULL, "scale min_scale(numeric)"),
    **rows(FAILS, "round trunc(numeric,int4)", "div mod(numeric,numeric)", "sqrt ln log log10 exp(numeric)",
           "sqrt ln log log10 exp(float8)", "power pow(float8,float8)", "power pow(numeric,numeric)", "log(numeric,numeric)",
           "degrees radians sin cos tan acos asin(float8)", "gcd lcm(int4,int4)", "gcd lcm(int8,int8)", "gcd lcm(numeric,numeric)",
           "factorial(int8)", "width_bucket(numeric,numeric,numeric,int4)", "width_bucket(float8,float8,float8,int4)",
           "int2 int4 int8(numeric)", "int2 int4 int8(float8)", "int2 int4 int8(float4)", "numeric(float8)", "numeric(float4)",
           "float4 float8(numeric)", "float4(float8)"),
    # Points and shapes.
    **rows(TOTAL, "npoints isclosed isopen(path)", "npoints(polygon)", "radius center(circle)"),
    **rows(FAILS, "area(box)", "area diameter(circle)", "center(box)", "height width(box)", "length(lseg)"),
    **rows(FAILS_OR_NULL, "area(path)"),
    # Text search.
    **rows(TOTAL, "length(tsvector)", "strip(tsvector)", "numnode(tsquery)", "ts_rank(tsvector,tsquery)"),
    # Documents.
    **rows(TOTAL, "text(xml)"),
    **rows(FAILS, "xpath_exists(text,xml)"),
    # Conversions between texts. Those with a length truncate.
    **rows(TOTAL, "text(char)", "text(bpchar)", "text(name)", "name(text)", "name(varchar)", "char(text)"),
    **rows(Row(limits=((1, "size"), (2, "explicit"))), "varchar(varchar,int4,bool)", "bpchar(bpchar,int4,bool)"),
    **rows(Row(limits=((1, "size"),), fails=True), "numeric(numeric,int4)", "timestamp(timestamp,int4)",
           "timestamptz(timestamptz,int4)"),
}
OPERATORS: dict[str, Row] = {
    # Texts.
    **{f"{op}({type},text)": LIKE for op in ("~~", "~~*") for type in ("text", "bpchar", "name")},
    **{f"{op}({type},text)": PATTERN for op in ("~", "~*") for type in ("text", "bpchar", "name")},
    **rows(TOTAL, "^@(text,text)", "||(text,text)", "||(bytea,bytea)", "~<~ ~<=~(text,text)"),
    # JSON.
    **rows(MAYBE_NULL, "->> ->(jsonb,text)", "->> ->(jsonb,int4)", "#>> #>(jsonb,_text)", "@? @@(jsonb,jsonpath)"),
    **rows(FAILS_OR_NULL, "->> ->(json,text)", "->> ->(json,int4)", "#>> #>(json,_text)"),
    **rows(TOTAL, "?(jsonb,text)", "?| ?&(jsonb,_text)", "@> <@ = < <=(jsonb,jsonb)", "||(jsonb,jsonb)"),
    **rows(FAILS, "-(jsonb,text)", "-(jsonb,int4)", "-(jsonb,_text)", "#-(jsonb,_text)"),
    # Arrays.
    **rows(ARRAYS, "@> <@ && = < <=(anyarray,anyarray)"),
    # Ranges.
    **rows(TOTAL, "@> <@ && << >> &< &> -|- = < <=(anyrange,anyrange)", "@>(anyrange,anyelement)", "<@(anyelement,anyrange)",
           "@>(anymultirange,anyelement)", "<@(anyelement,anymultirange)",
           "@> <@ && << >> = < <=(anymultirange,anymultirange)", "&& @> << >>(anymultirange,anyrange)",
           "&& <@ << >>(anyrange,anymultirange)", "*(anyrange,anyrange)"),
    **rows(FAILS, "+ -(anyrange,anyrange)"),
    # Networks.
    **rows(TOTAL, "< <=(bytea,bytea)", "< <=(name,name)", "< <=(name,text)", "< <=(char,char)", "< <=(macaddr8,macaddr8)"),
    **rows(TOTAL, "<< <<= >> >>= &&(inet,inet)", "~(inet)", "~(macaddr)",
           "& |(macaddr,macaddr)"),
    **rows(FAILS, "& |(inet,inet)", "-(inet,inet)", "+ -(inet,int8)"),
    # Numbers.
    **{f"{op}({it},int4)": TOTAL for op in ("<<", ">>") for it in ("int2", "int4", "int8")},
    **rows(TOTAL, "-(numeric)", "-(float4)", "-(float8)", "@(numeric)", "@(float4)", "@(float8)", "= < <=(money,money)"),
    **rows(FAILS, "^(float8,float8)", "^(numeric,numeric)", "|/ ||/(float8)"),
    # Times.
    **rows(TOTAL, "= < <=(timetz,timetz)", "+ -(time,interval)", "-(time,time)"),
    **rows(FAILS, "+ -(date,int4)", "-(date,date)", "+ -(date,interval)", "+(date,time)", "+ -(timestamp,interval)",
           "-(timestamp,timestamp)", "-(timestamptz,timestamptz)", "+ -(interval,interval)", "-(interval)", "* /(interval,float8)",
           "+(int4,date)"),
    # Bits.
    **rows(TOTAL, "= < <=(bit,bit)", "= < <=(varbit,varbit)", "~(bit)"),
    **rows(FAILS, "& | #(bit,bit)"),
    # Points and shapes.
    **rows(TOTAL, "<@(point,box)", "@>(box,point)", "<< >> ~=(point,point)", "&& ~= << >> @> <@(box,box)", "~=(polygon,polygon)"),
    **rows(FAILS, "<@(point,circle)", "@>(circle,point)", "<->(point,point)", "<@(point,polygon)", "@>(polygon,point)",
           "&& @> <@(circle,circle)", "&& @> <@(polygon,polygon)", "<->(circle,circle)"),
    # Text search, and others.
    **rows(TOTAL, "@@(tsvector,tsquery)", "@@(tsquery,tsvector)", "= < <=(tsvector,tsvector)", "= < <=(tsquery,tsquery)",
           "= < <=(pg_lsn,pg_lsn)", "-(pg_lsn,pg_lsn)"),
}
DAY_PARTS = {"year", "month", "day", "dow", "isodow", "doy", "quarter", "week", "isoyear", "century", "decade",
             "millennium", "epoch", "julian"}
CLOCK_PARTS = {"hour", "minute", "second", "microseconds", "milliseconds"}
SPAN_PARTS = {"year", "month", "day", "quarter", "century", "decade", "millennium", "epoch"}
PARTS = {"date": DAY_PARTS, "time": CLOCK_PARTS | {"epoch"}, "timestamp": DAY_PARTS | CLOCK_PARTS,
         "interval": SPAN_PARTS | CLOCK_PARTS}
# Parts that have a value for infinity, too: infinity itself.
INFINITE_PARTS = {"year", "isoyear", "century", "decade", "millennium", "epoch", "julian"}
# Arrays whose elements the server compares without a failure.
ELEMENTS = {"int2", "int4", "int8", "text", "varchar", "bpchar", "uuid", "date", "timestamp", "timestamptz", "numeric",
            "bool", "inet"}
# Constants by the names of limits: encodings of bytes, Unicode normal forms, and the units of date_trunc.
NAMES = {"code": {"hex", "base64", "escape"}, "form": {"NFC", "NFD", "NFKC", "NFKD"}, "unit": {
    "second", "minute", "hour", "day", "week", "month", "quarter", "year", "decade", "century", "millennium"}}
# The operators as people write them.
WORDS = {"~~": "LIKE", "~~*": "ILIKE"}
# The operators that are NOT of others. Those of an order are, if the order is total, as it is for each type above.
NEGATIONS = {
    "!~~": "~~", "!~~*": "~~*", "!~": "~", "!~*": "~*", "<>": "=", ">": "<=", ">=": "<", "~>~": "~<=~", "~>=~": "~<~"}
