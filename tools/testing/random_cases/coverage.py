"""The features that the cases of every seed must have. A program might give up, or answer wrongly, for each of them,
and be right otherwise."""

CATALOGS = [
    "several schemas", "a name between quotes", "a name of 63 bytes", "a subscriber of three publications",
    "a subscription of 64 publications", "32 subscribers", "a publication of all tables", "a publication of a schema",
    "a table that is carried twice", "a publication that leaves out an operation", "over 3 tables", "over 10 publications",
    "a subscription of over 10 publications", "a table of over 5 columns", "a table of 100 columns",
    "a key of several columns", "a unique index", "a unique index of two columns",
    "a unique index over a column that may be null",
    *(f"a column of {kind}" for kind in ("smallint", "integer", "bigint", "boolean", "text")),
    *(f"identity {identity}" for identity in ("DEFAULT", "FULL", "NOTHING", "USING INDEX")),
]

FILTERS = [
    *(f"a filter with cmp {operator}" for operator in ("=", "<>", "<", "<=", ">", ">=")),
    *(f"a filter with {head}" for head in ("and", "or", "not", "const", "null", "in", "between", "distinct", "whole")),
    *(f"a filter with IS {test}" for test in (True, False, None)),
    "a remainder", "a list of 100", "a filter of over 10 atoms", "NOT of NOT of NOT of NOT",
]

ROWS = [
    "a row is read", "a row is invalid", "a row is unreadable", "a null", "a text with a tab",
    "a text with control characters", "a text of 65,534 bytes or one more",
    *(f"the greatest {kind}" for kind in ("smallint", "integer", "bigint")),
    *(f"the least {kind}, or bigint that is read" for kind in ("smallint", "integer", "bigint")),
]

INPUTS = [
    "the answer input", "a bad character, bad_token", "a bad character, bad_step",
    *(f"a control character in_{part}" for part in (
        "catalog", "name", "literal", "comment", "certificate", "script", "text_of_script", "rows")),
]

CERTIFICATES = [
    "check answers accepted", "over 100 certificate lines", "a simulation that is refused",
    *(f"check answers {fault}" for fault in ("BadToken", "Ended", "Trailing", "TooDeep")),
    *(f"check answers refused {reason}" for reason in (
        "PublishMissing", "NoIdentity", "NotCovered", "CertCount", "BadIndex", "NotEmpty", "MayBeNull", "NotOwner",
        "SecondOwner")),
    "make finds a certificate", "make finds a row", "check after make answers accepted",
    "check after make answers refused",
]

STEPS = [
    *(f"a step {step}" for step in (
        "COMMIT", "OPEN", "HEAR", "TAKE", "KEEP", "DELIVER", "REPORT", "LOSE", "PUMP", "VIEW")),
    *(f"a command {command}" for command in ("INSERT", "UPDATE", "DELETE", "TRUNCATE")),
    *(f"the answer {answer}" for answer in (
        "opened", "already open", "not open", "not started", "idle", "kept", "reported", "lost", "no subscriber",
        "refused EmptyTransaction", "refused TooManyCommands", "refused LogFull", "commit ..", "heard ..",
        "delivered ..", "sent ..", "skipped ..", "at ..", "log ..")),
    *(f"the answer refused At .. {fault}" for fault in (
        "NoSuchRow", "DuplicateKey", "Row Width", "Row NullInNotNull", "Row WrongType", "Row OutOfRange")),
    "a command on a table with a smallint column", "a TRUNCATE of several tables", "a count past 2^32",
    "connections lost within a frame: over 0", "connections opened at a position: over 64",
]

LIMITS = [
    "100,000 steps", "1,000 connections lost", "a clock past 60,000", "a log of over 6,000 commits",
    "a log of 100,000 commits", "a table of over 10,100 rows",
    *(f"rows of a subscriber in a view: over {number}" for number in ("5", "9,999", "19,999")),
    *(f"changes for a subscriber in a commit: over {number}" for number in ("50", "950", "999")),
    *(f"bytes heard in a piece: over {number}" for number in ("100", "65,600")),
    *(f"bytes delivered in a piece: over {number}" for number in ("1,000", "65,600", "1,000,000")),
]

WANTED = [*CATALOGS, *FILTERS, *ROWS, *INPUTS, *CERTIFICATES, *STEPS, *LIMITS]
