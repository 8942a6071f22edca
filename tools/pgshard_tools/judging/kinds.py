"""Sentences for the kinds of faults of a text."""

from pgshard_tools.judging.limits import LIMITS

KINDS = {
    "BadToken": "this is not an SQL token, or a quote or comment is not terminated",
    "Expected": "syntax error",
    "LeftOut": "pgshard does not support this form",
    "ColumnList": "pgshard does not support column lists",
    "UnknownName": "this name does not exist",
    "NameTwice": "this name already exists",
    "TableTwice": "a publication names a table twice, once with a filter",
    "TypeClash": "the types in this expression do not match",
    "ZeroDivisor": "division by zero",
    "NoKey": "the table has no primary key",
    "NullableIndex": "this index has a nullable column, so it cannot identify rows",
    "NumberTooLarge": "pgshard reads numbers up to 9223372036854775807, and so not the least bigint",
    "NameTooLong": "the name is longer than 63 bytes",
    "TooDeep": "the filter is nested more than 64 levels deep",
    "TooMany": f"this exceeds a limit of pgshard: {'; '.join(LIMITS.values())}",
}
