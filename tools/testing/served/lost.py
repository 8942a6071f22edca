"""Clients that lose their connections to `pgshard serve` and come back, and what serve remembers of what they
confirm."""

import itertools
import pathlib
import time

from . import messages
from .clients import LITTLE, Connection, back_again, client
from .program import SECONDS
from .publisher import Publisher, end_of
from .shardings import S0, S1
from .shop import LONDON, TOKYO
from .whole import Findings, got_whole

# The transaction of london in the middle of which the connection is lost.
HALF_READ = 5

# How many more bytes a client reads each time before its connection is lost.
MORE = 61

# The system's connections, each with its own port, the other port, its state, and the bytes that were sent and not yet
# received.
CONNECTIONS = pathlib.Path("/proc/net/tcp")

# After its messages have been read, how many seconds a client that does not read waits until they have been processed.
UNTIL_HEARD = 1


def lost_and_back(port: int, publisher: Publisher) -> Findings:
    """A client is lost in the middle of a transaction, and comes back at the position that it has reached."""
    transactions = publisher.transactions(LONDON)
    reached = transactions[HALF_READ - 2][0][0] + 64
    before = sum(len(messages.xlog_data(*it)) for listed in transactions[:HALF_READ - 1] for it in listed)
    with client(port) as first:
        first.start(LONDON)
        whole = len(messages.COPY_BOTH_RESPONSE) + before
        yield "what london gets at first", first.receive(whole), publisher.stream(LONDON)[:whole]
        first.receive(len(messages.xlog_data(*transactions[HALF_READ - 1][0])))
    with back_again(port, LONDON, reached) as again:
        yield from got_whole(again, publisher, LONDON, reached)
    with client(port) as other:
        other.start(TOKYO)
        yield from got_whole(other, publisher, TOKYO)


def lost_again(port: int, publisher: Publisher) -> Findings:
    """A client is lost repeatedly, after ever more bytes, and comes back each time at the position that it has
    reached."""
    position = 0
    for tries in itertools.count(1):
        with back_again(port, LONDON, position) as made:
            expected = publisher.stream(LONDON, position)
            frames, _ = messages.frames_of(made.receive(min(MORE * tries, len(expected))))
        found = b"".join(frames)
        yield f"what london gets from {messages.written(position)} the {tries}th time", found, expected[:len(found)]
        if found == expected:
            return
        position = messages.end_in(frames, position)


def confirms(port: int, publisher: Publisher) -> Findings:
    """What is confirmed is not sent again, whatever the client requests."""
    with client(port) as first:
        first.start(LONDON)
        first.receive(len(publisher.stream(LONDON)))
        first.send(messages.status(end_of(6)) + messages.status(end_of(3)) + messages.status(0))
        yield "the end of a stream that was confirmed", first.finish(), messages.COPY_DONE
    for position in 0, end_of(4):
        with back_again(port, LONDON, position) as again:
            yield from got_whole(again, publisher, LONDON, end_of(6))


def confirms_too_much(port: int, publisher: Publisher) -> Findings:
    """A client that confirms more than it was sent loses its connection, and its confirmation is ignored."""
    for position in publisher.end() + 1, (1 << 32) + end_of(1), (1 << 64) - 1:
        with back_again(port, LONDON, 0) as first:
            first.receive(len(publisher.stream(LONDON)))
            first.send(messages.status(position))
            yield f"what comes after a status of {messages.written(position)}", first.receive_all(), b""
    with back_again(port, LONDON, 0) as again:
        yield from got_whole(again, publisher, LONDON)


def confirms_with_its_start(port: int, publisher: Publisher) -> Findings:
    """A client that confirms the first commit in the same bytes that start its stream has not been sent anything yet,
    although the log has that commit."""
    with client(port) as other:
        other.start(TOKYO)
        yield from got_whole(other, publisher, TOKYO)
    with client(port) as first:
        first.send(messages.start(LONDON.slot, 0, list(LONDON.publications)) + messages.status(end_of(1)))
        yield "what comes after a status with the start", first.receive_all(), messages.COPY_BOTH_RESPONSE
    with back_again(port, LONDON, 0) as again:
        yield from got_whole(again, publisher, LONDON)


def confirms_what_is_on_its_way(port: int, publisher: Publisher) -> Findings:
    """A slow client confirms the whole log, of which it has been sent only a part. It loses its connection, and its
    confirmation is ignored."""
    stream = publisher.stream(S1)
    with client(port, LITTLE) as slow, client(port) as other:
        slow.start(S1)
        other.start(S0)
        yield from got_whole(other, publisher, S0)
        slow.send(messages.status(publisher.end()))
        await_heard(port, slow)
        found = slow.receive_all()
        yield "whether a slow client is sent all", len(found) < len(stream), True
        yield "what it is sent", stream.startswith(found), True
    with back_again(port, S1, 0) as again:
        yield from got_whole(again, publisher, S1)


def await_heard(port: int, made: Connection) -> None:
    """Waits until a server has read and processed everything that a client has sent."""
    until = time.monotonic() + SECONDS
    while not is_read(port, made.opened.getsockname()[1]) and time.monotonic() < until:
        time.sleep(0.05)
    time.sleep(UNTIL_HEARD)


def is_read(port: int, other: int) -> bool:
    """Returns whether nothing waits to be read on the connection from one port to another."""
    for line in CONNECTIONS.read_text(encoding="ascii").splitlines()[1:]:
        _, local, remote, _, queues, *_ = line.split()
        if local.endswith(f":{port:04X}") and remote.endswith(f":{other:04X}"):
            return int(queues.partition(":")[2], 16) == 0
    return True


def confirms_what_it_was_sent(port: int, publisher: Publisher) -> Findings:
    """A client confirms each commit as it arrives. It keeps its connection, and its stream continues to the end of the
    log."""
    with client(port) as first:
        first.start(LONDON)
        found = first.receive(len(messages.COPY_BOTH_RESPONSE))
        for listed in publisher.transactions(LONDON):
            found += first.receive(sum(len(messages.xlog_data(*it)) for it in listed))
            first.send(messages.status(listed[0][0] + 64))
        found += first.finish()
        yield "what a client gets that confirms each commit", found, publisher.stream(LONDON) + messages.COPY_DONE
    last = publisher.transactions(LONDON)[-1][0][0] + 64
    with back_again(port, LONDON, 0) as again:
        yield from got_whole(again, publisher, LONDON, last)
