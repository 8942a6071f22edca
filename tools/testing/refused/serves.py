"""Runs of `serve` with two clients, in which memory or threads are refused."""

import contextlib
import os
import subprocess
import tempfile
import threading
from collections.abc import Iterator
from concurrent.futures import ThreadPoolExecutor
from dataclasses import dataclass, field

from random_cases.running import program
from served import messages
from served.clients import NO_END, client
from served.program import NO_PORT, PORTS, free_port
from served.publisher import Publisher, Subscriber
from served.sharding import Sharding
from served.shop import CATALOG, COMMITS, LONDON, TABLES, TOKYO
from served.whole import whole_stream

from .running import NO_MEMORY, OUT_OF_MEMORY, SECONDS, Answer, Refusal, count_of, refused_in_turn

# Commits of all kinds.
SHOP = Sharding(CATALOG, TABLES, (LONDON, TOKYO), COMMITS[:9])

# How long a client waits for more before it leaves, in seconds: after a refusal it may not get everything, and is not
# told.
IDLE_SECONDS = 0.15

# The distance between refused requests, and between requests from which on all are refused.
STRIDE = 4
STRIDE_AFTER = 16

# No thread after this many is refused, though there may be more threads.
MOST_THREADS = 20

# How long a client waits that should get everything or be told, in seconds.
LONG_IDLE_SECONDS = 60


@dataclass
class Served:
    """A run, and what each client got, without clocks and times."""

    answer: Answer
    got: dict[str, bytes] = field(default_factory=dict)


class Serving:
    """A sharding that is served to one client for each subscriber."""

    def __init__(self, sharding: Sharding, library: str) -> None:
        self.text = sharding.input().encode()
        self.publisher = sharding.publisher()
        self.subscribers = sharding.subscribers
        self.library = library

    def run(self, refusal: Refusal, idle: float = IDLE_SECONDS) -> Served:
        """Makes a run. Tries another port if the first one is taken."""
        for _ in range(PORTS):
            found = self.run_at(free_port(), refusal, idle)
            if (found.answer.status, found.answer.output) != (NO_PORT, ""):
                break
        return found

    def run_at(self, port: int, refusal: Refusal, idle: float) -> Served:
        """Makes a run on a port."""
        with tempfile.TemporaryFile() as given, tempfile.TemporaryFile() as errors:
            given.write(self.text)
            given.seek(0)
            variables = os.environ | refusal.variables(self.library)
            words = [program(), "serve", "--port", str(port)]
            with subprocess.Popen(words, stdin=given, stdout=subprocess.PIPE, stderr=errors, env=variables) as started:
                late = threading.Timer(SECONDS, started.kill)
                late.start()
                first = started.stdout.readline()
                got = self.clients(port, idle) if first.startswith(b"listening") else {}
                rest = started.stdout.read()
                status = started.wait()
                late.cancel()
            errors.seek(0)
            output = (first + rest).decode(errors="backslashreplace").replace(f" {port}\n", " PORT\n")
            # The program's lines precede the library's line.
            told = b"".join(errors.read().splitlines(keepends=True)[-1:])
            return Served(Answer(status, output, count_of(told)), got)

    def clients(self, port: int, idle: float) -> dict[str, bytes]:
        """Returns what the clients get, which run concurrently."""
        with ThreadPoolExecutor(len(self.subscribers)) as pool:
            found = pool.map(lambda subscriber: sent_to(port, self.publisher, subscriber, idle), self.subscribers)
            return {subscriber.slot: sent for subscriber, sent in zip(self.subscribers, found)}

    def fault(self, found: Served) -> str | None:
        """Returns what is wrong with a run, which may have been refused memory."""
        answer = found.answer
        if answer.refused is None or answer.status not in (0, NO_MEMORY):
            return f"status {answer.status}, {answer.output!r}, {answer.refused} refused"
        ends = {0: [f"listening PORT\nclosed {len(self.publisher.log)} {len(self.subscribers)}\n"]}
        ends[NO_MEMORY] = [OUT_OF_MEMORY, f"listening PORT\n{OUT_OF_MEMORY}"]
        if answer.output not in ends[answer.status]:
            return f"status {answer.status}, {answer.output!r}"
        for subscriber in self.subscribers:
            sent = found.got.get(subscriber.slot, b"")
            if not is_first_part(sent, self.publisher, subscriber):
                return f"{subscriber.slot} gets {sent[-200:]!r}"
        return None

    def is_whole(self, found: Served) -> bool:
        """Returns whether the clients got everything."""
        return all(
            messages.without_times(found.got[it.slot]) == whole_stream(self.publisher, it) for it in self.subscribers)


def sent_to(
        port: int, publisher: Publisher, subscriber: Subscriber, idle: float, patience: float = SECONDS) -> bytes:
    """Returns what a client gets that leaves when it has its stream, or when nothing more has come for a while. It
    waits as long for the end of the connection."""
    found = b""
    with contextlib.suppress(OSError), client(port) as made:
        made.start(subscriber)
        made.opened.settimeout(idle)
        found = made.receive_as_is(len(publisher.stream(subscriber))).removesuffix(NO_END)
        made.opened.settimeout(patience)
        made.send(messages.COPY_DONE)
        found += made.receive_as_is(1 << 30).removesuffix(NO_END)
    return found


def is_first_part(sent: bytes, publisher: Publisher, subscriber: Subscriber) -> bool:
    """Returns whether a client got a prefix of its stream, and possibly the end of the stream after some whole frames.
    Of a partial frame, only the kind and the length are compared."""
    frames, left = messages.frames_of(sent)
    expected, _ = messages.frames_of(publisher.stream(subscriber))
    if frames[-1:] == [messages.COPY_DONE] and not left:
        frames.pop()
    if [messages.without_times(whole) for whole in frames] != expected[:len(frames)]:
        return False
    next_one = expected[len(frames)] if len(frames) < len(expected) else messages.COPY_DONE
    return next_one.startswith(left[:5]) and len(left) < len(next_one)


def refused_serves(serving: Serving) -> Iterator[tuple[Refusal, Served]]:
    """Makes runs in which some requests are refused, up to runs that meet no refusal; and the same with all later
    requests refused."""
    return refused_in_turn(serving.run, STRIDE, STRIDE_AFTER)


def refused_threads(serving: Serving) -> Iterator[tuple[Refusal, Served]]:
    """Makes runs in which each thread is refused in turn, up to one that meets no refusal; and the same with all later
    threads refused."""
    for and_after in False, True:
        for number in range(1, MOST_THREADS):
            refusal = Refusal(number, and_after, "THREAD")
            found = serving.run(refusal, LONG_IDLE_SECONDS)
            yield refusal, found
            if not found.answer.refused:
                break
