"""Tests `pgshard publish` with a thousand junk connections that request nothing, and six subscribers that get their
streams."""

import contextlib
import os
import random
import resource
import socket
import struct
import time
from collections.abc import Iterator
from pathlib import Path

from programs import pgshard
from tally import Tally

from . import messages
from .clients import Connection, back_again
from .program import SECONDS, Publication, processor_time, publishing
from .publisher import Command, Insert, Publisher, Subscriber, Update, command_text
from .shardings import of_crowd

JUNK = 1_000
SUBSCRIBERS = 6
# How many files each of the two processes may have open: one for each junk connection, and some for others.
FILES = JUNK + 500
# How long the streams and the end may take in the presence of junk, in seconds.
PATIENCE = 2 * SECONDS
# After all have their streams: the seconds of a pause, the processor time that publish may use in it, and the memory
# that it may have, in bytes.
REST, MOST_BUSY, MOST_MEMORY = 3.0, 0.5, 100_000_000
# The beginnings of answers after which a client tries again. While many wait, this includes the end of the connection:
# the system may pass on a client's start some time after its connection, and a client that sends nothing for 0.2
# seconds makes room for others.
LATE_ANSWERS = b"E", b""
# What junk sends: nothing, a part of a frame, a frame that is never completed, or something that is not a frame.
BEGINS = [b"", b"Q\0", struct.pack("!cI", b"Q", 1_000) + b"START", random.Random(1).randbytes(40)]

COMMITS: list[list[Command]] = [
    [Insert("t", (number, number)) for number in range(SUBSCRIBERS)],
    *([Update("t", (number,), (number, (number + turn) % SUBSCRIBERS)) for number in range(SUBSCRIBERS)]
      for turn in range(1, 20)),
]


def check_crowded(tally: Tally) -> None:
    """Tests all of this."""
    made = of_crowd((("id", "integer"), ("turn", "integer")), COMMITS, SUBSCRIBERS)
    _, certificates = pgshard("make", text=made.catalog, seconds=SECONDS)
    publisher = Publisher(made.tables)
    began = time.monotonic()
    with files(FILES), publishing(f"{made.catalog}%%\n{certificates}%%\n") as (program, port):
        with contextlib.ExitStack() as junk, contextlib.ExitStack() as clients:
            for number in range(JUNK):
                throw(junk, port, number)
            answers = []
            opened: dict[str, Connection] = {}
            for number, commands in enumerate(COMMITS):
                answers.append(program.ask(f"COMMIT {', '.join(map(command_text, commands))};"))
                publisher.commit(commands)
                for subscriber in made.subscribers[number:number + 1]:
                    opened[subscriber.slot] = clients.enter_context(back_again(port, subscriber, 0, LATE_ANSWERS))
            tally.check("answers beside junk", answers, [f"commit {at}\n" for at in range(1, len(COMMITS) + 1)])
            check_streams(tally, publisher, made.subscribers, opened)
            tally.check("how soon beside junk", time.monotonic() - began < PATIENCE, True)
            junk.close()
            check_rest(tally, program)
        status, lines = program.finish()
        tally.check("the end beside junk", (status, [line.split()[:2] for line in lines]), (0, [["closed", str(len(COMMITS))]]))


def check_streams(
        tally: Tally, publisher: Publisher, subscribers: tuple[Subscriber, ...], opened: dict[str, Connection]) -> None:
    """Checks that each subscriber gets all of its stream, and confirms it."""
    for subscriber in subscribers:
        expected = publisher.stream(subscriber)
        found = opened[subscriber.slot].receive(len(expected))
        tally.check(f"the stream of {subscriber.slot} beside junk", found, expected)
        opened[subscriber.slot].send(messages.status(publisher.end()))


def check_rest(tally: Tally, program: Publication) -> None:
    """Checks that publish uses almost no processor time if there is nothing to do, and that what junk occupied is
    released."""
    process = program.process.pid
    before = processor_time(process)
    time.sleep(REST)
    used, memory = processor_time(process) - before, resident(process)
    tally.check(f"processor time of a rest, {used:.2f} s", used < MOST_BUSY, True)
    tally.check(f"memory at the end, {memory:,} bytes", memory < MOST_MEMORY, True)
    print(f"  after {JUNK} junk connections: {used:.2f} s of {REST:.0f}, {memory // 1_000_000} MB")


def throw(junk: contextlib.ExitStack, port: int, number: int) -> None:
    """Makes a junk connection. Every fifth one ends at once. If many are waiting, the connection is not yet
    established, and sends nothing."""
    made = socket.socket()
    made.setblocking(False)
    with contextlib.suppress(BlockingIOError):
        made.connect(("127.0.0.1", port))
    with contextlib.suppress(OSError):
        made.send(BEGINS[number % len(BEGINS)])
    if number % 5 == 0:
        made.close()
    else:
        junk.enter_context(made)


@contextlib.contextmanager
def files(count: int) -> Iterator[None]:
    """Allows this process and those that it starts to open as many files as necessary."""
    soft, hard = resource.getrlimit(resource.RLIMIT_NOFILE)
    resource.setrlimit(resource.RLIMIT_NOFILE, (max(soft, min(count, hard)), hard))
    try:
        yield
    finally:
        resource.setrlimit(resource.RLIMIT_NOFILE, (soft, hard))


def resident(process: int) -> int:
    """Returns the memory that a process uses, in bytes."""
    pages = Path(f"/proc/{process}/statm").read_text(encoding="ascii").split()[1]
    return int(pages) * os.sysconf("SC_PAGE_SIZE")
