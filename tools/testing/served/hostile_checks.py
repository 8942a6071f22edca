"""Tests tools/front with clients that harm it, with publishers that do not answer, and with few file descriptors."""

import contextlib
import os
import pathlib
import socket
import time
from collections.abc import Callable, Iterator

from tally import Tally

from . import messages
from .clients import client
from .front_checks import DONE, START, STARTUP, packet, psql
from .load import resident
from .program import SECONDS, Started, fronting, nobody, processor_time, serving
from .publisher import Insert, end_of
from .sharding import Sharding
from .shardings import halves

# Queries for which a backtracking parser takes long.
LONG = 30_000
SLOW = [
    f"SHOW a{1000 * ' '}b", f"SHOW a{LONG * ' '}b", f"SHOW {LONG * 'a'}", LONG * "'", LONG * '"', LONG // 2 * "'\"",
    f"CREATE_REPLICATION_SLOT a{LONG * ' '}b", f"START_REPLICATION SLOT a LOGICAL 0/0 ({LONG * ' '}a",
    f"SELECT t.pubname FROM pg_catalog.pg_publication t WHERE t.pubname IN ({LONG // 4 * chr(39) * 2}",
    f"START_REPLICATION SLOT s0 LOGICAL 0/0 ({LONG // 2 * 'a,'}",
]
# How many seconds of processor time the front may use meanwhile, in which others wait.
MOST_BUSY = 2

# The seconds within which a client has to start, a client in a stream has to send something, and a publisher has to
# answer. A front that is suspended for as long also gives up clients that behave well.
TO_START, TO_SPEAK, TO_ANSWER = 3, 6, 3

FILES = 64
# More connections than these files allow.
CROWD = 100
VANISHED = 30

# The memory that the front's process may use, in bytes.
MEMORY = 60_000_000

NOT_RECORDED = (
    'ERROR:  replication slot "s0" cannot be dropped, since it would not start from the beginning: '
    "the temporary file cannot be written: File too large")
TOO_LATE = messages.frame(b"E", b"SFATAL\0VFATAL\0C57014\0Mcanceling authentication due to timeout\0\0")
TOO_MANY = messages.frame(b"E", b"SFATAL\0VFATAL\0C53300\0Msorry, too many clients already\0\0")
LOST = messages.frame(b"E", b"SFATAL\0VFATAL\0C08006\0Mthe connection to pgshard serve has ended\0\0")
TOO_LONG = messages.frame(b"E", b"SFATAL\0VFATAL\0C08P01\0Minvalid message length\0\0")


def check_hostile(tally: Tally) -> None:
    """Tests each kind of harm, and then the state of the front."""
    check_slow_queries(tally)
    check_silent_publisher(tally)
    check_few_files(tally)
    check_silence(tally)
    check_lengths(tally)
    check_ahead(tally)
    check_full_file(tally)


def check_slow_queries(tally: Tally) -> None:
    """Checks that nobody waits for a query of another client."""
    with nobody() as port, fronting(port) as (front, front_port):
        for query in SLOW:
            with client(front_port) as slow, client(front_port) as other:
                for made in slow, other:
                    made.send(packet(STARTUP))
                    made.receive_until(b"Z\0\0\0\x05I")
                before = processor_time(front.process.pid)
                slow.send(messages.query(query))
                other.send(messages.query("SHOW TimeZone"))
                other.receive_until(b"Z\0\0\0\x05I")
                slow.receive_until(b"Z\0\0\0\x05I")
                used = processor_time(front.process.pid) - before
                tally.check(f"{query[:40]!r}..: it keeps nobody, with {used:.2f} s", used < MOST_BUSY, True)
        check_front_is_well(tally, "after slow queries", front)


def check_silent_publisher(tally: Tally) -> None:
    """Checks that a publisher that does not answer costs each client only its connection, and that nothing remains of
    clients that vanish meanwhile."""
    with silent() as port:
        with fronting(port, "--backend-timeout", str(TO_ANSWER)) as (front, front_port), client(front_port) as made:
            made.send(packet(STARTUP) + messages.query(START.format(version=1)))
            frames, _ = messages.frames_of(made.receive_all())
            tally.check("what a client is told where the publisher is silent", frames[-1], LOST)
            check_front_is_well(tally, "before a silent publisher", front)
        with fronting(port) as (front, front_port):
            vanish(front_port, packet(STARTUP) + messages.query(START.format(version=1)))
            name = f"nothing is left of {VANISHED} clients that vanished"
            tally.check(name, settles(lambda: sockets(front), 1), True)
            check_front_is_well(tally, "after clients that vanished", front)
            tally.check("a line of the log for each", settles(lambda: len(front.log), VANISHED), True)


def check_few_files(tally: Tally) -> None:
    """Checks that a crowd that does nothing, either after connecting or during startup, keeps no subscriber out of a
    front with 64 files, and ends no stream."""
    with (
        serving(halves([[Insert("t", (7, "eu"))]]).input(), "--connections", "20") as (_, port),
        fronting(port, limit=f"--nofile={FILES}") as (front, front_port),
        client(front_port) as streaming,
    ):
        streaming.send(packet(STARTUP) + messages.query(START.format(version=1)))
        streaming.receive_until(messages.COPY_BOTH_RESPONSE)
        for sent in b"", packet(STARTUP):
            with contextlib.ExitStack() as opened:
                crowd = [opened.enter_context(client(front_port)) for _ in range(CROWD)]
                for made in crowd:
                    with contextlib.suppress(OSError):
                        made.send(sent)
                found = psql(front_port, "SHOW server_version")
                tally.check("psql beside a crowd, with 64 files", found, "15.18\n")
                told = crowd[0].receive_all()
                tally.check("what is told to who waited longest", told[-len(TOO_MANY):], TOO_MANY)
        streaming.send(messages.COPY_DONE + messages.TERMINATE)
        tally.check("the stream has not ended", streaming.receive_all()[-len(DONE):], DONE)
        check_front_is_well(tally, "with 64 files", front)


def check_silence(tally: Tally) -> None:
    """Tests clients that send nothing before they have started, and in a stream. A client that answers is kept."""
    with (
        serving(halves([[Insert("t", (7, "eu"))]]).input(), "--connections", "20") as (_, port),
        fronting(port, "--start-timeout", str(TO_START), "--timeout", str(TO_SPEAK)) as (front, front_port),
        client(front_port) as waiting, client(front_port) as stopping,
    ):
        begin = time.monotonic()
        stopping.send(packet(STARTUP) + messages.query(START.format(version=1)))
        tally.check("what a client is told that starts nothing", waiting.receive_all(), TOO_LATE)
        frames, _ = messages.frames_of(stopping.receive_all())
        tally.check("the last frame before a silent client is given up", frames[-1][-1:], b"\1")
        tally.check("a silent client is given up in time", TO_SPEAK - 0.5 < time.monotonic() - begin < SECONDS, True)
        tally.check("nothing is left of both", settles(lambda: sockets(front), 1), True)
        tally.check("a line of the log for each", settles(lambda: len(front.log), 2), True)
        tally.check(
            "what the log says of both", [line.split(": ", 2)[-1] for line in front.log],
            [f"not started within {TO_START} seconds\n", f"the client said nothing for {TO_SPEAK} seconds\n"])
        check_front_is_well(tally, "after silent clients", front)


def check_lengths(tally: Tally) -> None:
    """Tests frames with impossible lengths."""
    with nobody() as port, fronting(port) as (front, front_port):
        for given in b"\0\0\0\3", b"\xff\xff\xff\xff", b"\0\1\0\0", b"\x16\3\1\2", packet(STARTUP) + b"Q\0\1\0\5":
            with client(front_port) as made:
                made.send(given)
                frames, _ = messages.frames_of(made.receive_all())
                tally.check(f"what is answered to {given[-5:]!r}", frames[-1:], [TOO_LONG])
        check_front_is_well(tally, "after frames of invalid lengths", front)


def check_ahead(tally: Tally) -> None:
    """Checks that a client that confirms what was never sent loses its own stream, and confirms nothing."""
    sharding = halves([[Insert("t", (7, "eu"))], [Insert("t", (8, "eu"))]])
    with serving(sharding.input(), "--connections", "20") as (_, port), fronting(port) as (front, front_port):
        for flushed in (1 << 62, (1 << 64) - 1):
            with client(front_port) as made:
                made.send(packet(STARTUP) + messages.query(START.format(version=1)))
                made.receive_until(messages.COPY_BOTH_RESPONSE)
                made.send(messages.status(flushed, wants_reply=True))
                frames, _ = messages.frames_of(made.receive_all())
                tally.check(f"what ends a stream where {flushed:X} is confirmed", frames[-1], LOST)
        until = time.monotonic() + SECONDS
        while (found := stream_end(front_port, sharding)) == 0 and time.monotonic() < until:
            time.sleep(0.1)
        tally.check("where the next stream ends", found, sharding.publisher().end())
        check_front_is_well(tally, "after positions that were never sent", front)


def stream_end(port: int, sharding: Sharding) -> int:
    """Returns the end of the first slot's stream, or 0 while the slot is in use."""
    count = len(sharding.publisher().stream(sharding.subscribers[0]))
    with client(port) as made:
        made.send(packet(STARTUP) + messages.query(START.format(version=1)))
        made.receive_until(b"Z\0\0\0\x05I")
        if made.receive(1) != messages.COPY_BOTH_RESPONSE[:1]:
            return 0
        frames, _ = messages.frames_of(messages.COPY_BOTH_RESPONSE[:1] + made.receive(count - 1))
        return messages.end_in(frames, 0)


def check_full_file(tally: Tally) -> None:
    """Checks that streams continue if the temporary file cannot be written, and that a slot is then not dropped."""
    sharding = halves([[Insert("t", (number, "x" * 10_000))] for number in range(20)])
    with serving(sharding.input(), "--connections", "20") as (_, port):
        with fronting(port, limit="--fsize=50000") as (front, front_port):
            with client(front_port) as made:
                made.send(packet(STARTUP) + messages.query(START.format(version=1)))
                made.receive_until(messages.COPY_BOTH_RESPONSE)
                # The first frame is a keepalive, from which the front learns where the stream begins.
                count = len(messages.keepalive(0) + sharding.publisher().stream(sharding.subscribers[0]))
                frames, _ = messages.frames_of(made.receive(count - len(messages.COPY_BOTH_RESPONSE)))
                tally.check("where the stream ends that is not recorded", messages.end_in(frames, 0), end_of(20))
                made.send(messages.COPY_DONE + messages.TERMINATE)
                made.receive_all()
            found = psql(front_port, "DROP_REPLICATION_SLOT s0 WAIT")
            tally.check("a slot without its record is not dropped", found.splitlines()[:1], [NOT_RECORDED])
            check_front_is_well(tally, "without a file", front)


def check_front_is_well(tally: Tally, what: str, front: Started) -> None:
    """Checks that the front runs in one thread and uses little memory."""
    tally.check(f"front runs {what}", front.is_running(), True)
    status = pathlib.Path(f"/proc/{front.process.pid}/status").read_text(encoding="ascii")
    tally.check(f"the threads of front {what}", dict(map(parted, status.splitlines()))["Threads"], "1")
    tally.check(f"the memory of front {what}", resident(front.process.pid) < MEMORY, True)


def parted(line: str) -> tuple[str, str]:
    """Splits a line into its name and value."""
    name, _, value = line.partition(":")
    return name, value.strip()


def sockets(front: Started) -> int:
    """Returns how many sockets a front has for connections and for listening."""
    folder = f"/proc/{front.process.pid}/fd"
    found = 0
    for name in os.listdir(folder):
        with contextlib.suppress(OSError):
            found += os.readlink(f"{folder}/{name}").startswith("socket:")
    # Two further sockets wake it on signals.
    return found - 2


def settles(found: Callable[[], int], expected: int) -> bool:
    """Returns whether a count reaches the expected value in time."""
    until = time.monotonic() + SECONDS
    while found() != expected and time.monotonic() < until:
        time.sleep(0.05)
    return found() == expected


def vanish(port: int, given: bytes) -> None:
    """Connects clients that send something and vanish a moment later."""
    with contextlib.ExitStack() as opened:
        for _ in range(VANISHED):
            opened.enter_context(client(port)).send(given)
        time.sleep(0.5)


@contextlib.contextmanager
def silent() -> Iterator[int]:
    """Provides a port on which connections are accepted and nothing is answered."""
    with socket.create_server(("127.0.0.1", 0), backlog=2 * VANISHED) as listener:
        yield listener.getsockname()[1]
