"""The main theorems: which clauses of which contracts state each, and which names in them need not be read."""

from dataclasses import dataclass, field

from believing.library import CRATES, Place


@dataclass(frozen=True)
class Ensured:
    """Why a name need not be read: each of these clauses ensures it, by name or by a definition that contains the name.
    If there are parts, the clauses ensure these instead, and the name is defined by them."""

    why: str
    by: tuple[Place, ...]
    parts: tuple[str, ...] = ()


@dataclass
class Theorem:
    """A theorem: its mark on the page; where it is stated; the most lines that it may need, if that is bounded; the
    names that need not be read, each with the reason; and the traits whose members its clauses name, with the type that
    is behind a lock."""

    key: str
    said: list[Place]
    most: int | None = None
    tokens: dict[str, str | Ensured] = field(default_factory=dict)
    traits: list[Place] = field(default_factory=list)


def clauses(crate: str, file: str, name: str, *labels: str) -> Place:
    """Returns these clauses of a function, or all of them."""
    return Place(CRATES / crate / "src" / file, name, labels)


def trait(crate: str, file: str, name: str) -> Place:
    """Returns a trait, or a type."""
    return Place(CRATES / crate / "src" / file, name)


def on_link(name: str, *labels: str) -> Place:
    """Returns these clauses of a call of `Link`."""
    return clauses("copy_both", "link.rt", name, *labels)


def on_subscriber(name: str, *labels: str) -> Place:
    """Returns these clauses of a call of `Subscriber`."""
    return clauses("test_subscriber", "subscriber.rt", name, *labels)


def on_book(name: str, *labels: str) -> Place:
    """Returns these clauses of a call of `Book`."""
    return clauses("tables_log", "book.rt", name, *labels)


def in_world(name: str, *labels: str) -> Place:
    """Returns these clauses of a call of `World`."""
    return clauses("shard_world", "world.rt", name, *labels)


MADE = clauses("copy_frames", "laws.rt", "bytes_make_frames", "made")
READS = clauses("pub_reader", "statement.rt", "read_catalog", "catalog")

HANDED = {
    "Opens": Ensured("what `Subscriber::open` ensures and the law requires", (on_subscriber("open", "ok"),)),
    "Feeds": Ensured("what `Subscriber::feed` ensures and the law requires", (on_subscriber("feed", "ok"),)),
    "sub_machine": Ensured(
        "what a `Subscriber` keeps; `rows` and `position` show its rows and its position",
        (on_subscriber("rows", "found"), on_subscriber("position"))),
}

LINKS = {
    "HearSays": Ensured("what `Link::hear` ensures and the law requires", (on_link("hear", "says"),)),
    "HearingOf": Ensured(
        "what `Link::hear` heard in a piece: where the stream starts, how many replies are requested, and the kind of "
        "the client's frame that ended it, 99 for CopyDone (`copy_both/specs/Hearing` and `Events`)",
        (on_link("hear", "says"),)),
    "LinkPasses": Ensured("what `Link::passed` ensures and the law requires", (on_link("passed"),)),
    "link_stage": Ensured(
        "the state of a link, which calls pass to one another; it is `Started` exactly while `Link::sent` returns a "
        "position", (on_link("sent"),)),
    "link_checked": Ensured("the catalog of a link, which is the one that `Link::new` was given", (on_link("new"),)),
    "link_output": Ensured("what waits to be sent, which `Link::output` shows", (on_link("output"),)),
}

FRAMES = {
    "whole_frames": Ensured("the frames of bytes, which `bytes_make_frames` defines", (MADE,)),
    "bytes_left": Ensured("what comes after the frames of bytes, which `bytes_make_frames` defines", (MADE,)),
    "fault_in": Ensured(
        "the fault of what comes after the frames of bytes, which `bytes_make_frames` defines", (MADE,)),
}

BOOKS = {
    "HasMaps": "how a `Book` keeps its rows, which `row` shows",
    "IsSettled": "how a `Book` keeps its rows, which `row` shows",
    "IsRouterOf": "how a `Book` finds who gets a change, which `owners` of an entry shows",
    "book_log": Ensured("the log of a `Book`, which `entry` shows", (on_book("entry"),)),
    "book_rows": Ensured("the tables of a `Book`, which `row` shows", (on_book("row"),)),
    "book_checked": Ensured("the catalog of a `Book`, which is the one that `new` was given", (on_book("new"),)),
    "book_setting": "what the catalog of a `Book` says about changes, as in `setting_of`",
}

LIMIT = Ensured("the limit of a `Book`, which `limit` shows", (on_book("limit", "shows"),))

COMMAND = ("the grammar of START_REPLICATION, of 55.4 of the documentation, and of the options of pgoutput, in "
           "`copy_both/specs/CommandText`")

SOUNDNESS = Theorem("soundness", [clauses("shard_checker", "sharding.rt", "check", "sound", "kept")], most=650)

GRAMMAR = "the grammar, which need not be read, since the text of the catalog is printed"
CERTIFICATES = "the certificates, which need not be read, since the catalog is sound"
REFUSAL = "why a sharding is refused or an input is not read; then the status is not `Done`"

SHOWN = Theorem("shown", [
    clauses("commands", "check.rt", "check_input", "ends"),
    clauses("catalog_laws", "laws.rt", "texts_tell_catalogs"),
], most=650, tokens={
    "catalog_by": GRAMMAR,
    "as_filter": GRAMMAR,
    "lines_of": CERTIFICATES,
    "text_fault": CERTIFICATES,
    "trees_in": CERTIFICATES,
    "Tree": CERTIFICATES,
    "IsFirstRefusal": CERTIFICATES,
    "SaysRefused": REFUSAL,
    "IsCheckFault": REFUSAL,
    "InputFault": REFUSAL,
})

READ = Theorem("read", [clauses("pub_reader", "laws.rt", "catalogs_are_well_formed")], most=200, tokens={
    "catalog_by": Ensured(
        "the catalog that a text spells, which `read_catalog` returns: the grammar is read in part 6", (READS,)),
    "as_filter": Ensured("the filter that is written there: the grammar is read in part 6", (READS,)),
})

CODEC = Theorem("codec", [
    clauses("pgoutput_msgs", "encoding.rt", "encode"),
    clauses("pgoutput_msgs", "decoding.rt", "decode", "found", "only", "trailing", "fault"),
    clauses("pgoutput_msgs", "laws.rt", "no_spelling_begins_another"),
], most=300)

CONNECTION = Theorem("connection", [
    clauses("copy_both", "laws.rt", "links_say_streams", "hears", "takes", "keeps", "passes", "grows"),
    clauses("stream_laws", "laws.rt", "fed_subscribers_follow", "first", "fed", "stops"),
    clauses("test_subscriber", "laws.rt", "pieces_are_fed_as_one", "fed"),
    on_subscriber("rows"),
    on_subscriber("position"),
    on_link("output"),
    on_link("sent"),
], most=1400, tokens={
    **HANDED,
    **LINKS,
    "FeedStops": Ensured(
        "what `Subscriber::feed` ensures if it is refused memory, and the law requires",
        (on_subscriber("feed", "stops"),)),
    "sub_listed": Ensured("what `Subscriber::rows` lists", (on_subscriber("rows", "shows"),)),
    "LinkSays": Ensured(
        "what `Link::take` and `Link::keepalive` ensure and the law requires",
        (on_link("take", "ok"), on_link("keepalive", "ok"))),
    "next_bytes": Ensured("ensured by `Link::take` and required by the law, word for word", (on_link("take", "ok"),)),
    "next_stage": Ensured("ensured by `Link::take` and required by the law, word for word", (on_link("take", "ok"),)),
    "kept_bytes": Ensured(
        "ensured by `Link::keepalive` and required by the law, word for word", (on_link("keepalive", "ok"),)),
})

ENDED = Theorem("ended", [
    clauses("copy_both", "laws.rt", "links_say_streams", "ends", "breaks", "stops", "rest", "front"),
    on_link("output"),
], most=1000, tokens={
    **LINKS,
    "SendsFirst": Ensured(
        "what `Link::hear` ensures if it is refused memory, and the law requires", (on_link("hear", "says"),)),
    "Closes": Ensured(
        "what a call that closes a link ensures, and the law requires",
        (on_link("hear", "says"), on_link("take", "err"), on_link("keepalive", "err"), on_link("lose"))),
})

HEADLINE = Theorem("headline", [
    in_world("new"),
    in_world("step"),
    in_world("run"),
    in_world("pump"),
    in_world("view"),
], most=1800, tokens={
    "IsWorld": Ensured(
        "which world of the definition a `World` matches: `new` ensures it for the first one, each call preserves it, "
        "and `view` requires it", (in_world("new", "stands"), in_world("step"))),
    "world_checked": Ensured(
        "the catalog of a `World`, which is the one that `new` was given", (in_world("new", "checked"),)),
    "IsServedAlike": "that the book of a `World` has its catalog, so that `step` takes commits by the book's sets",
    "AreLinkedTo": "that the connections of a `World` have its catalog, so that `step` takes commits by the book's "
                   "sets",
    "book_checked": BOOKS["book_checked"],
    "machine_now": "how the definition keeps a subscriber's rows; what is shown is defined without it",
    "Machine": "how the definition keeps a subscriber's rows; what is shown is defined without it",
    "first_machine": "how the definition keeps a subscriber's rows; what is shown is defined without it",
    "lost": "how the definition keeps a subscriber's rows; what is shown is defined without it",
})

PUBLISHING = trait("publisher_desk", "naming.rt", "Publishing")

SERVED = Theorem("served", [
    clauses("senders", "serving.rt", "serve"),
    clauses("senders", "connection.rt", "run_all"),
    MADE,
], most=2250, tokens={
    "frames_in": "the `whole_frames` of bytes, with the limit 65,536",
    **FRAMES,
    **BOOKS,
    "command_of": COMMAND,
}, traits=[
    trait("senders", "source.rt", "Source"),
    trait("senders", "sink.rt", "Sink"),
    PUBLISHING,
])

SESSIONS = Theorem("sessions", [
    clauses("publisher_desk", "publisher.rt", "new"),
    clauses("publisher_desk", "publisher.rt", "commit"),
    clauses("publisher_desk", "publisher.rt", "read"),
    clauses("publisher_desk", "publisher.rt", "next_step"),
    clauses("publisher_desk", "publisher.rt", "with_slots"),
    clauses("publisher_desk", "publisher.rt", "with_slots_for"),
    clauses("publisher_desk", "publisher.rt", "compare"),
    clauses("publisher_desk", "publisher.rt", "compare_seat"),
], most=1750, tokens={
    "OwnsHeld": "that the number by which a `Viewer` acquired its slot is among its own, from which `release` is proved",
    **BOOKS,
    "book_limit": LIMIT,
}, traits=[
    PUBLISHING,
    trait("publisher_desk", "slot_task.rt", "SlotTask"),
    trait("publisher_desk", "desk.rt", "Desk"),
])

CLOSED = Theorem("closed", [
    clauses("senders", "closing.rt", "close"),
    clauses("senders", "served.rt", "check", "seen"),
    clauses("senders", "served.rt", "compare", "apart"),
    clauses("publisher_desk", "closing.rt", "check_seat", "seen", "events"),
    clauses("publisher_desk", "closing.rt", "book", "used", "confirmed", "turns", "within"),
    clauses("publisher_desk", "closing.rt", "count", "counted"),
    clauses("senders", "laws.rt", "closed_publishers_were_followed"),
    MADE,
], most=2600, tokens={
    **HANDED,
    **FRAMES,
    **BOOKS,
    "command_of": COMMAND,
    "book_limit": LIMIT,
}, traits=[PUBLISHING])

PROGRAM = Theorem("program", [
    clauses("cli", "program.rt", "run"),
    clauses("cli", "program.rt", "run_serving"),
], most=6950, tokens={
    "IsClosed": Ensured(
        "what `close` of `senders` ensures, which is read in part 5",
        (clauses("senders", "closing.rt", "close", "ok"),)),
    "RefusedClose": Ensured(
        "what `close` of `senders` ensures, which is read in part 5",
        (clauses("senders", "closing.rt", "close", "refused"),)),
    "WasServed": Ensured(
        "that `serve` of `senders`, which is read in part 5, may return this result for some bytes that were read and "
        "written", (clauses("senders", "serving.rt", "serve"),), parts=("IsServed",)),
    "IsMade": Ensured(
        "what `commit` of `publisher_desk` ensures, which is read in part 5",
        (clauses("publisher_desk", "publisher.rt", "commit", "made"),)),
    "IsPassedOver": Ensured(
        "what `commit` of `publisher_desk` ensures, which is read in part 5, and that the error is not out of memory",
        (clauses("publisher_desk", "publisher.rt", "commit", "refused", "fault"),), parts=("IsRefused", "HasFault")),
    "IsRouterOf": "how a `Book` finds who gets a change, which `owners` of an entry shows",
    "cut": Ensured(
        "the frames of bytes and what comes after them: `bytes_make_frames`, which is read in part 5, says of its "
        "frames, of its rest and of its fault what they are",
        (clauses("copy_frames", "laws.rt", "bytes_make_frames", "cut"),)),
    "decoded": Ensured(
        "the message that bytes spell, or a fault that they have: `spellings_are_decoded` of `pgoutput_msgs` says of "
        "it what part 2 says of `decode`",
        (clauses("pgoutput_msgs", "laws.rt", "spellings_are_decoded", "decoded", "spelled", "alone", "faults"),)),
})

THEOREMS = [SOUNDNESS, SHOWN, READ, CODEC, CONNECTION, ENDED, HEADLINE, SERVED, SESSIONS, CLOSED, PROGRAM]
