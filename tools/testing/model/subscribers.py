"""A subscriber that is fed bytes: what it answers, and its state afterwards.

The rules are those of sections 31.2, 31.5, 55.4 and 55.9 of PostgreSQL's documentation and of docs/DECISIONS.md. States
are immutable: a frame yields a new state.
"""

import re
from dataclasses import dataclass, field, replace

from .catalogs import Row, Value
from .decoding import Begin, Change, Commit, Fault, Relation, Texts, Truncate, message_of
from .values import ENDS, LONGEST_TEXT, order_of, told_apart

# The OIDs of the types.
KINDS = {16: "boolean", 20: "bigint", 21: "smallint", 23: "integer", 25: "text"}

# The greatest and the least value of a frame's length field, which counts itself.
LONGEST, SHORTEST = 16_777_216, 4

COPY_BOTH = b"\0\0\0"

# The letter, two positions or clocks, and a byte that requests a reply.
KEEPALIVE = 1 + 8 + 8 + 1
XLOG_HEADER = 1 + 8 + 8 + 8

# The severity twice, a code and a text. Further fields may follow.
REFUSAL = re.compile(rb"SERROR\0VERROR\0C(.{5})\0M.*\0\0", re.S)

BOOLEANS = {"t": True, "f": False}

Table = tuple[Row, ...]


@dataclass(frozen=True)
class State:
    """A subscriber's position, its Relations by their numbers, and its rows. On a connection, also whether the stream
    has started, the end of the transaction that has begun, its rows, and which Relations have been sent."""

    is_open: bool = False
    has_started: bool = False
    position: int = 0
    is_asked: bool = False
    begun: int | None = None
    told: frozenset[int] = frozenset()
    relations: frozenset[Relation] = frozenset()
    tables: frozenset[tuple[int, Table]] = frozenset()
    staged: frozenset[tuple[int, Table]] = field(default=frozenset())

    def opened(self) -> "State":
        """Returns the state on a new connection."""
        return replace(self.shut(), is_open=True, is_asked=False)

    def shut(self) -> "State":
        """Returns the state without a connection, and without what was not committed. After a fault it is still known
        whether a reply was requested."""
        return replace(
            self, is_open=False, has_started=False, begun=None, told=frozenset(), staged=frozenset())

    def rows(self, oid: int) -> list[Row]:
        """Returns the rows of a table, in order."""
        return sorted(dict(self.tables).get(oid, ()), key=order_of)


def feed(state: State, text: bytes, at: int = 0) -> tuple[int, str, State]:
    """Feeds bytes, beginning with the frame at this index, until there is a fault. Returns how many bytes were
    consumed, the answer, and the new state."""
    while at < len(text):
        length = int.from_bytes(text[at + 1:at + 5], "big", signed=True)
        if at + 5 <= len(text) and not SHORTEST <= length <= LONGEST:
            why = "BadLength" if length < SHORTEST else "FrameTooLong"
            return at + 5, f"Err(Frame({why}))", state.shut()
        end = at + 1 + length
        if at + 5 > len(text) or end > len(text):
            break
        fault, state = after_frame(state, text[at:at + 1], text[at + 5:end])
        if fault is not None:
            return end, f"Err({fault})", state
        at = end
    return len(text), "Ok(())", state


def after_frame(state: State, kind: bytes, body: bytes) -> tuple[str | None, State]:
    """Returns the fault of a frame, if there is one, and the new state."""
    try:
        return None, hear(state, kind, body)
    except Fault as fault:
        return str(fault), state.shut()


def hear(state: State, kind: bytes, body: bytes) -> State:
    """Returns the state after a frame without a fault."""
    if not state.has_started:
        if kind == b"E":
            raise refusal(body)
        if kind == b"W" and body == COPY_BOTH:
            return replace(state, has_started=True)
        raise Fault("OutOfPlace")
    match kind, body[:1]:
        case b"d", b"w":
            if len(body) < XLOG_HEADER:
                raise Fault("Frame(BadLength)")
            return apply(state, message_of(body[XLOG_HEADER:]))
        case b"d", b"k":
            if len(body) != KEEPALIVE:
                raise Fault("Frame(BadLength)")
            return after_keepalive(state, int.from_bytes(body[1:9], "big"), body[-1] != 0)
    raise Fault("OutOfPlace")


def refusal(body: bytes) -> Fault:
    """Returns the fault that reports a publisher's refusal of a start."""
    found = REFUSAL.fullmatch(body)
    return Fault("OutOfPlace" if found is None else f"Refused({list(found[1])})")


def after_keepalive(state: State, position: int, is_asked: bool) -> State:
    """Returns the state after a keepalive. Its position is ignored within a transaction."""
    if state.begun is None:
        state = replace(state, position=max(state.position, position))
    return replace(state, is_asked=state.is_asked or is_asked)


def apply(state: State, message: object) -> State:
    """Returns the state after a message."""
    match message:
        case Relation():
            return learn(state, message)
        case Begin(lsn):
            if state.begun is not None:
                raise Fault("OutOfPlace")
            return replace(state, begun=lsn, staged=state.tables)
        case Commit(lsn, end):
            if state.begun is None or state.begun != lsn:
                raise Fault("OutOfPlace")
            return replace(
                state, begun=None, tables=state.staged, staged=frozenset(), position=max(state.position, end))
    if state.begun is None:
        raise Fault("OutOfPlace")
    if isinstance(message, Truncate):
        return truncate(state, message)
    return change(state, message)


def learn(state: State, relation: Relation) -> State:
    """Returns the state after a Relation. If one is known already, perhaps from an earlier connection, it has to be the
    same."""
    kept = {it.oid: it for it in state.relations}
    if kept.get(relation.oid, relation) != relation:
        raise Fault("OutOfPlace")
    if any(column.kind not in KINDS for column in relation.columns):
        raise Fault("BadValue")
    return replace(state, relations=state.relations | {relation}, told=state.told | {relation.oid})


def told_relation(state: State, oid: int) -> Relation:
    """Returns the Relation of a table that was sent on this connection."""
    if oid not in state.told:
        raise Fault(f"NoRelation({oid})")
    return next(it for it in state.relations if it.oid == oid)


def truncate(state: State, message: Truncate) -> State:
    """Returns the state after tables are emptied."""
    for oid in message.oids:
        told_relation(state, oid)
    staged = {oid: rows for oid, rows in state.staged if oid not in message.oids}
    return replace(state, staged=frozenset(staged.items()))


def change(state: State, message: Change) -> State:
    """Returns the state after a change of a row. A change of a row that does not exist is skipped."""
    relation = told_relation(state, message.oid)
    old, new = (None if side is None else row_of(relation, side) for side in (message.old, message.new))
    tables = dict(state.staged)
    rows = list(tables.get(message.oid, ()))
    if message.letter != b"I":
        sought = identity_of(relation, new if old is None else old)
        found = [row for row in rows if identity_of(relation, row) == sought]
        if not found:
            return state
        rows.remove(found[0])
    if new is not None:
        if identity_of(relation, new) in [identity_of(relation, row) for row in rows]:
            raise Fault("DuplicateKey")
        rows.append(new)
    return replace(state, staged=frozenset((tables | {message.oid: tuple(sorted(rows, key=order_of))}).items()))


def identity_of(relation: Relation, row: Row) -> tuple:
    """Returns the values by which a row is found."""
    return told_apart(tuple(value for column, value in zip(relation.columns, row) if column.is_flagged))


def row_of(relation: Relation, texts: Texts) -> Row:
    """Converts texts to a row."""
    if len(texts) != len(relation.columns):
        raise Fault("BadValue")
    return tuple(value_of(KINDS[column.kind], text) for column, text in zip(relation.columns, texts))


def value_of(kind: str, text: str | None) -> Value:
    """Converts a text to a value."""
    if text is None:
        return None
    if kind == "boolean" and text in BOOLEANS:
        return BOOLEANS[text]
    if kind == "text" and "\0" not in text and len(text.encode()) <= LONGEST_TEXT:
        return text
    if kind in ENDS and text.isascii() and text.removeprefix("-").isdigit() and str(int(text)) == text:
        if -ENDS[kind] <= int(text) < ENDS[kind]:
            return int(text)
    raise Fault("BadValue")
