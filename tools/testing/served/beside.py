"""Clients that behave differently from subscribers, while others are served by `pgshard serve`."""

import contextlib
import random
from collections.abc import Callable, Iterator
from contextlib import AbstractContextManager

from . import messages
from .clients import LITTLE, back_again, client
from .publisher import Publisher
from .shardings import S0, S1
from .shop import LONDON, SHOP, TOKYO
from .whole import Findings, got_whole, together, whole_stream

# How many bytes of junk a client sends.
JUNK = 16_000_000

# First frames that are refused, each with the error code and message.
BAD_STARTS = [
    (messages.status(0), "08P01", "expected a query"),
    (messages.query("SELECT 1"), "42601", "cannot read the replication command"),
    (messages.start("paris", 0, ["low"]), "42704", 'replication slot "paris" does not exist'),
    (
        messages.query("START_REPLICATION SLOT london LOGICAL 0/0 (proto_version '3', publication_names 'low')"),
        "0A000", 'option "proto_version" is not supported',
    ),
    (
        messages.query("START_REPLICATION SLOT london LOGICAL 0/0 (proto_version '1')"),
        "22023", 'option "publication_names" is missing',
    ),
    (messages.start("london", 0, ["middle"]), "42704", 'publication "middle" does not exist'),
    (messages.start("london", 0, ["high"]), "22023", 'publications differ from those of slot "london"'),
    *(
        (messages.start("london", position, ["low"]), "22023", "start position is ahead of the log")
        for position in ((1 << 32) + 64, 1 << 40, (1 << 64) - 1)
    ),
]


def beside(strange: Callable[[int], AbstractContextManager]) -> Callable[[int, Publisher], Findings]:
    """Serves both subscribers of the shop while a client does something else."""
    def findings(port: int, publisher: Publisher) -> Findings:
        with strange(port):
            for subscriber in LONDON, TOKYO:
                with back_again(port, subscriber, 0) as made:
                    yield from got_whole(made, publisher, subscriber)
    return findings


def one_slot(port: int, publisher: Publisher) -> Findings:
    """A second client asks for a slot that is in use."""
    with client(port) as first, client(port) as second, client(port) as other:
        first.start(LONDON)
        response = first.receive(len(messages.COPY_BOTH_RESPONSE))
        second.start(LONDON)
        refused = messages.error_response("55006", 'replication slot "london" is active')
        yield "what the second client gets", second.receive_all(), refused
        other.start(TOKYO)
        left = len(publisher.stream(LONDON)) - len(response)
        yield "what the first gets", response + first.receive(left) + first.finish(), whole_stream(publisher, LONDON)
        yield from got_whole(other, publisher, TOKYO)


def never_reads(port: int, publisher: Publisher) -> Findings:
    with client(port, LITTLE) as silent, client(port) as other:
        silent.start(S1)
        other.start(S0)
        yield from got_whole(other, publisher, S0)


def bad_starts(port: int, publisher: Publisher) -> Findings:
    for first, code, text in BAD_STARTS:
        with client(port) as refused:
            refused.send(first)
            yield f"the response of {code} {text}", refused.receive_all(), messages.error_response(code, text)
    yield from together(SHOP.subscribers)(port, publisher)


@contextlib.contextmanager
def sending(port: int, given: bytes) -> Iterator[None]:
    """A client that sends some bytes, as many as are accepted, and stays."""
    with client(port) as made:
        with contextlib.suppress(OSError):
            made.send(given)
        yield


@contextlib.contextmanager
def leaving(port: int, given: bytes) -> Iterator[None]:
    """A client that sends some bytes and disconnects at once."""
    with client(port) as made:
        made.send(given)
    yield


def junk_of_frames() -> bytes:
    """Returns long frames that are not a start."""
    return messages.frame(b"d", bytes(65_000)) * (JUNK // 65_000)


START = messages.start("london", 0, ["low"])
STRANGE: list[tuple[str, Callable[[int], AbstractContextManager]]] = [
    ("a client that sends nothing", lambda port: sending(port, b"")),
    ("a client that closes at once", lambda port: leaving(port, b"")),
    ("a client that terminates at once", lambda port: leaving(port, messages.TERMINATE)),
    ("a client that closes in its start", lambda port: leaving(port, START[:50])),
    ("a client that stops in its start", lambda port: sending(port, START[:50])),
    ("a client that starts and closes", lambda port: leaving(port, START)),
    ("a client that starts and terminates", lambda port: leaving(port, START + messages.TERMINATE)),
    ("a client that starts and is done", lambda port: leaving(port, START + messages.COPY_DONE)),
    ("16 MB of one byte", lambda port: sending(port, b"\xff" * JUNK)),
    ("16 MB of random bytes", lambda port: sending(port, random.Random(1).randbytes(JUNK))),
    ("16 MB of frames", lambda port: sending(port, junk_of_frames())),
    ("16 MB of frames after a start", lambda port: sending(port, START + junk_of_frames())),
    ("16 MB of random bytes after a start", lambda port: sending(port, START + random.Random(2).randbytes(JUNK))),
]
