"""Complete streams that a publisher may send."""

from served.messages import (
    COPY_BOTH_RESPONSE,
    begin,
    commit,
    delete,
    error_response,
    frame,
    insert,
    keepalive,
    relation,
    truncate,
    tuple_of,
    update,
    xlog_data,
)

OID = 16_384

# The first commit inserts the row (7, 'eu') into `public.t`, whose replica identity is FULL: CopyBothResponse, and
# then Begin, Relation, Insert and Commit as XLogData.
INSERT = bytes.fromhex("""
    57 00000007 00 0000
    64 00000032 77 0000000000000040 0000000000000040 0000000000000004
        42 0000000000000040 0000000000000001 00000003
    64 0000004a 77 0000000000000040 0000000000000040 0000000000000004
        52 00004000 7075626c696300 7400 66 0002
            01 696400 00000017 ffffffff
            01 726567696f6e00 00000019 ffffffff
    64 00000032 77 0000000000000040 0000000000000040 0000000000000004
        49 00004000 4e 0002 74 00000001 37 74 00000002 6575
    64 00000037 77 0000000000000040 0000000000000040 0000000000000004
        43 00 0000000000000040 0000000000000080 0000000000000001
""")

COLUMNS = [(True, "k", "smallint"), (False, "b", "boolean"), (False, "n", "bigint"), (False, "c", "text")]

# A table is truncated after its first row. Then two rows are inserted: one gets another key and is deleted, the other
# gets other values.
CHANGES = [
    begin(64, 1),
    relation(OID, "u", "d", COLUMNS),
    insert(OID, (3, False, None, None)),
    truncate([OID]),
    insert(OID, (1, True, -20, None)),
    insert(OID, (2, None, 30, "é")),
    update(OID, b"K" + tuple_of((1, None, None, None)), (3, False, None, "")),
    update(OID, b"", (2, True, 0, "x")),
    delete(OID, b"K" + tuple_of((3, None, None, None))),
    commit(64, 128),
]

# The publisher refuses the start.
REFUSAL = error_response("55006", 'replication slot "s0" is active')


def stream_of(messages: list[bytes]) -> bytes:
    """Returns a stream of these messages, followed by a keepalive that requests a reply."""
    told = b"".join(xlog_data(64, message) for message in messages)
    return COPY_BOTH_RESPONSE + told + frame(b"d", keepalive(256)[5:-1] + b"\1")


# The streams by name.
STREAMS = {
    "an Insert": INSERT,
    "other changes": stream_of(CHANGES),
    "a refusal": REFUSAL,
}
