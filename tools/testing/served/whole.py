"""Clients that get their whole streams from `pgshard serve`."""

import contextlib
import time
from collections.abc import Callable, Iterator

from . import messages
from .clients import LITTLE, Connection, back_again, client
from .publisher import Command, Insert, Publisher, Subscriber, end_of
from .shardings import S0, S1
from .shop import LONDON, TOKYO

# Descriptions, each with what clients found and what they should have found.
Findings = Iterator[tuple[str, object, object]]

# Commits of halves, and what each client is sent for them, with P for a position, and 0 for K, a clock, and for T, a
# time.
TWO_COMMITS: list[list[Command]] = [[Insert("t", (7, "eu"))], [Insert("t", (150, "us"))]]
TWO_STREAMS = [
    (S0, """
        57 00000007 00 0000
        64 00000032 77 P P K 42 P T 00000003
        64 0000004a 77 P P K 52 00004000 7075626c696300 7400 66 0002
           01 696400 00000017 ffffffff 01 726567696f6e00 00000019 ffffffff
        64 00000032 77 P P K 49 00004000 4e 0002 74 00000001 37 74 00000002 6575
        64 00000037 77 P P K 43 00 P 0000000000000080 T
        63 00000004
    """, "0000000000000040"),
    (S1, """
        57 00000007 00 0000
        64 00000032 77 P P K 42 P T 00000004
        64 0000004a 77 P P K 52 00004000 7075626c696300 7400 66 0002
           01 696400 00000017 ffffffff 01 726567696f6e00 00000019 ffffffff
        64 00000034 77 P P K 49 00004000 4e 0002 74 00000003 313530 74 00000002 7573
        64 00000037 77 P P K 43 00 P 00000000000000c0 T
        63 00000004
    """, "0000000000000080"),
]

# The seconds from 1970 to 2000.
EPOCH = 946_684_800


def stream_of(made: Connection, publisher: Publisher, subscriber: Subscriber, position: int = 0) -> bytes:
    """Returns what a started client gets: as many bytes as its stream has, and then the end of the stream."""
    return made.receive(len(publisher.stream(subscriber, position))) + made.finish()


def whole_stream(publisher: Publisher, subscriber: Subscriber, position: int = 0) -> bytes:
    """Returns what it should get: its stream and CopyDone, and nothing more."""
    return publisher.stream(subscriber, position) + messages.COPY_DONE


def written_bytes(port: int, publisher: Publisher) -> Findings:
    """Two clients, whose expected bytes are written out."""
    with client(port) as first, client(port) as second:
        for made, (subscriber, text, position) in zip((first, second), TWO_STREAMS):
            made.start(subscriber)
            for letter, value in ("P", position), ("K", "0" * 16), ("T", "0" * 16):
                text = text.replace(letter, value)
            found = stream_of(made, publisher, subscriber)
            yield f"what {subscriber.slot} gets", found.hex(), bytes.fromhex(text).hex()


def together(subscribers: tuple[Subscriber, ...]) -> Callable[[int, Publisher], Findings]:
    """Clients that start together, and are read one after the other."""
    def findings(port: int, publisher: Publisher) -> Findings:
        with contextlib.ExitStack() as opened:
            clients = [opened.enter_context(client(port)) for _ in subscribers]
            for made, subscriber in zip(clients, subscribers):
                made.start(subscriber)
            for made, subscriber in zip(clients, subscribers):
                yield from got_whole(made, publisher, subscriber)
    return findings


def got_whole(made: Connection, publisher: Publisher, subscriber: Subscriber, position: int = 0) -> Findings:
    """Compares the stream that a started client gets with the expected one."""
    found = stream_of(made, publisher, subscriber, position)
    yield f"what {subscriber.slot} gets", found, whole_stream(publisher, subscriber, position)


def byte_by_byte(port: int, publisher: Publisher) -> Findings:
    """One client sends its start byte by byte, and then statuses; the other reads byte by byte."""
    with client(port) as first, client(port) as second:
        first.send_slowly(messages.start("london", 0, ["low"]) + messages.status(0) + messages.status(0))
        second.start(TOKYO)
        yield from got_whole(first, publisher, LONDON)
        bytes_of = b"".join(second.receive_as_is(1) for _ in publisher.stream(TOKYO))
        found = messages.without_times(bytes_of) + second.finish()
        yield "what tokyo gets byte by byte", found, whole_stream(publisher, TOKYO)


def times(port: int, publisher: Publisher) -> Findings:
    """Checks that the clock of each frame is within the run, and that the time in a transaction's Begin and Commit is
    the number of its step."""
    before = clock()
    with client(port) as first, client(port) as second:
        first.start(LONDON)
        second.start(TOKYO)
        for made, subscriber in (first, LONDON), (second, TOKYO):
            sent, _ = messages.frames_of(made.receive_as_is(len(publisher.stream(subscriber))))
            clocks = [before, *(int.from_bytes(whole[22:30], "big") for whole in sent[1:]), clock()]
            yield f"the clocks of {subscriber.slot} in order", clocks, sorted(clocks)
            told = [messages.time_of(whole[messages.MESSAGE:]) for whole in sent[1:]]
            steps = [messages_of[0][0] // 64 for messages_of in publisher.transactions(subscriber)]
            yield f"the times of {subscriber.slot}", [it for it in told if it is not None], sorted(steps + steps)


def clock() -> int:
    """Returns the microseconds since the year 2000."""
    return int((time.time() - EPOCH) * 1_000_000)


def late(port: int, publisher: Publisher) -> Findings:
    """One client connects at once, and starts only after the other was served and has disconnected."""
    with client(port) as second:
        second.send(messages.start("tokyo", 0, ["high", "nowhere"])[:20])
        with client(port) as first:
            first.start(LONDON)
            yield from got_whole(first, publisher, LONDON)
        second.send(messages.start("tokyo", 0, ["high", "nowhere"])[20:])
        yield from got_whole(second, publisher, TOKYO)


def from_positions(port: int, publisher: Publisher) -> Findings:
    """One client starts in the middle of the log, and the other at its end, after which nothing comes; each starts when
    the log has become that long."""
    for subscriber, position in (LONDON, end_of(4)), (TOKYO, publisher.end()):
        with back_again(port, subscriber, position) as made:
            yield from got_whole(made, publisher, subscriber, position)


def asks_for_replies(port: int, publisher: Publisher) -> Findings:
    """One client reads nothing for a while, so that it is not sent everything, and requests a reply."""
    with client(port, LITTLE) as slow, client(port) as other:
        slow.start(S1)
        other.start(S0)
        yield from got_whole(other, publisher, S0)
        slow.send(messages.status(0, wants_reply=True))
        stream = publisher.stream(S1)
        frames, _ = messages.frames_of(slow.receive(len(stream) + len(messages.keepalive(0))))
        replies = [at for at, whole in enumerate(frames) if whole[5:6] == b"k"]
        yield "how many replies come", len(replies), 1
        for at in replies:
            yield "the reply", frames[at], messages.keepalive(messages.end_in(frames[:at], 64))
        others = [whole for whole in frames if whole[5:6] != b"k"]
        yield "what comes beside it", b"".join(others) == stream, True
        yield "the end", slow.finish(), messages.COPY_DONE
