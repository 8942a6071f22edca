"""Clients of `pgshard serve` under load: 100,000 commits, each of a row of one of 32 subscribers, whose clients are
served concurrently. If some clients are rough, a few stop reading until the others have everything, and others lose
their connections repeatedly and come back at the position that they have reached."""

import contextlib
import threading
from collections.abc import Iterator
from concurrent.futures import ThreadPoolExecutor

from . import messages
from .clients import LITTLE, Connection, back_again, client
from .program import SECONDS
from .publisher import Command, Insert, Publisher, end_of
from .sharding import Sharding
from .shardings import CROWD, of_crowd

COMMITS = 100_000

# How many of the first subscribers stop reading. Their rows are so long that a system buffers neither a whole stream
# nor half of one for a client that does not read it.
STOPPING = 3
LONG = 1_250

# How many bytes such a client reads before it stops.
BEFORE_STOP = 100_000

# How many subscribers after these lose their connections, and after how many bytes each time.
LOST = 8
READ_BEFORE_LOSS = (3, 50, 20_000, 100_001, 250_007)

# How long the clients of a run wait for each other, in seconds.
TOGETHER = 2 * SECONDS

# A description, the value found, and the expected value.
Found = list[tuple[str, object, object]]


def row(number: int) -> tuple:
    """Returns the row of a commit, whose numbers begin at 1."""
    turn = number % CROWD
    return (number, turn, "x" * LONG if turn < STOPPING else "")


def sharding() -> Sharding:
    """Returns a sharding in which each commit inserts a row of the next subscriber."""
    commits: list[list[Command]] = [[Insert("t", row(number))] for number in range(1, COMMITS + 1)]
    return of_crowd((("id", "integer"), ("turn", "integer"), ("note", "text")), commits)


class Streams:
    """The expected stream of each subscriber, computed commit by commit."""

    def __init__(self, made: Sharding) -> None:
        self.subscribers = made.subscribers
        self.relation = Publisher(made.tables).relation("t")
        self.transactions: list[list[tuple[int, list[bytes]]]] = [[] for _ in self.subscribers]
        for number in range(1, COMMITS + 1):
            first = messages.begin(64 * number, number + 2)
            last = messages.commit(64 * number, end_of(number))
            told = [first, messages.insert(16384, row(number)), last]
            self.transactions[number % CROWD].append((number, told))

    def stream(self, slot: int, position: int = 0) -> bytes:
        """Returns everything that a subscriber's connection is sent from a position on, without clocks and times."""
        told = [it for it in self.transactions[slot] if 64 * it[0] >= position]
        frames = [messages.xlog_data(64 * number, message) for number, listed in told for message in listed]
        if frames:
            frames.insert(1, messages.xlog_data(64 * told[0][0], self.relation))
        return messages.COPY_BOTH_RESPONSE + b"".join(frames)


class Clients:
    """The clients of a run on a port, each in a thread of its own."""

    def __init__(self, streams: Streams, port: int, are_rough: bool) -> None:
        self.streams = streams
        self.port = port
        self.are_rough = are_rough
        # All clients and the run itself wait for each other here: first when some have stopped reading, and then when
        # each client has its stream.
        self.stopped = threading.Barrier(CROWD + 1, timeout=TOGETHER)
        self.whole = threading.Barrier(CROWD + 1, timeout=TOGETHER)

    @contextlib.contextmanager
    def started(self) -> Iterator[list]:
        """Starts the clients, and yields the futures of what they find."""
        with ThreadPoolExecutor(CROWD) as pool:
            try:
                yield [pool.submit(self.findings, slot) for slot in range(CROWD)]
            finally:
                self.give_up()

    def give_up(self) -> None:
        """Ends all waiting."""
        self.stopped.abort()
        self.whole.abort()

    def findings(self, slot: int) -> Found:
        """Returns what the client of a slot finds, or the fault that stopped it."""
        try:
            return self.served(slot)
        except (OSError, threading.BrokenBarrierError) as fault:
            self.give_up()
            return [(f"s{slot}", f"{type(fault).__name__}: {fault}", "no fault")]

    def served(self, slot: int) -> Found:
        """Returns what a client finds that gets its whole stream in its own way."""
        if self.are_rough and slot < STOPPING:
            return self.stops(slot)
        if self.are_rough and slot < STOPPING + LOST:
            return self.is_lost(slot)
        with client(self.port) as made:
            made.start(self.streams.subscribers[slot])
            return self.whole_of(made, slot)

    def stops(self, slot: int) -> Found:
        """Runs a client that reads the first bytes, and no more until the others have everything. The last such client
        then continues; the others are cut off, and come back."""
        expected = self.streams.stream(slot)
        with client(self.port, LITTLE) as made:
            made.start(self.streams.subscribers[slot])
            first = made.receive_as_is(BEFORE_STOP)
            self.stopped.wait()
            if slot == STOPPING - 1:
                sent = messages.without_times(first + made.receive_as_is(len(expected) - len(first)))
                self.whole.wait()
                return [(f"what s{slot} gets", sent + made.finish(), expected + messages.COPY_DONE)]
        frames, _ = messages.frames_of(messages.without_times(first))
        found = b"".join(frames)
        position = messages.end_in(frames, 0)
        with back_again(self.port, self.streams.subscribers[slot], position) as again:
            return [
                (f"what s{slot} gets before it stops", found, expected[:len(found)]),
                *self.whole_of(again, slot, position, waits=False)]

    def is_lost(self, slot: int) -> Found:
        """Runs a client that is repeatedly lost in the middle of its stream and comes back, until it has everything."""
        subscriber, position, found = self.streams.subscribers[slot], 0, []
        for count in READ_BEFORE_LOSS:
            expected = self.streams.stream(slot, position)
            with back_again(self.port, subscriber, position) as made:
                frames, _ = messages.frames_of(made.receive(count))
            got = b"".join(frames)
            found.append((f"what s{slot} gets from {messages.written(position)} on", got, expected[:len(got)]))
            position = messages.end_in(frames, position)
        with back_again(self.port, subscriber, position) as made:
            return found + self.whole_of(made, slot, position)

    def whole_of(self, made: Connection, slot: int, position: int = 0, waits: bool = True) -> Found:
        """Returns what a started client gets that reads everything."""
        expected = self.streams.stream(slot, position)
        sent = made.receive(len(expected))
        if waits:
            self.stopped.wait()
        self.whole.wait()
        name = f"what s{slot} gets from {messages.written(position)} on"
        return [(name, sent + made.finish(), expected + messages.COPY_DONE)]


def resident(process: int) -> int:
    """Returns the memory that a process uses, in bytes, except for mapped files; 0 if it has ended."""
    with open(f"/proc/{process}/status", encoding="ascii") as told:
        sizes = dict(line.split(":", 1) for line in told)
    return 1024 * int(sizes.get("RssAnon", "0 kB").split()[0])
