"""Runs of `publish` with two clients, in which memory or threads are refused."""

import contextlib
import os
import re
import subprocess
import tempfile
import threading
from collections.abc import Iterator
from concurrent.futures import ThreadPoolExecutor
from dataclasses import dataclass, field

from random_cases.running import program
from runs.catalogs import C
from served import messages
from served.publisher import Insert, Publisher, Subscriber, command_text
from served.shardings import HALVES_CATALOG, S0, S1, TABLE
from served.whole import whole_stream

from .running import AT_A_TIME, NO_MEMORY, OUT_OF_MEMORY, SECONDS, Answer, Refusal, count_of, refused_in_turn
from .serves import IDLE_SECONDS, is_first_part, sent_to

# Commits of one row each, for the subscribers in turn.
COMMITS = [[Insert("t", (number + 100 * (number % 2), "x"))] for number in range(8)]
SUBSCRIBERS = S0, S1
TEXT = "\n".join(
    [f"{HALVES_CATALOG}%%", f"{C}%%", *(f"COMMIT {command_text(it)};" for [it] in COMMITS), ""]).encode()

# The distance between refused requests, and between requests from which on all are refused.
STRIDE = 7
STRIDE_AFTER = 29

# Which threads are refused: those of the session, of the keepalives, of some connection slots and of clients.
THREADS = [1, 2, 3, 4, 20, 60, *range(64, 76)]

# How long a client waits for more if threads are refused, in seconds.
THREADS_IDLE_SECONDS = 1

LISTENING = re.compile(r"listening \d+\n")
CLOSED = re.compile(r"closed (\d+) (\d+)\n")


@dataclass
class Published:
    """A run, and what each client got."""

    answer: Answer
    got: dict[str, bytes] = field(default_factory=dict)


class Publishing:
    """A publication for two clients."""

    def __init__(self, library: str) -> None:
        self.library = library

    def run(self, refusal: Refusal, idle: float = IDLE_SECONDS) -> Published:
        """Makes a run, whose input ends when the clients have left."""
        with tempfile.TemporaryFile() as errors:
            words, variables = [program(), "publish", "--port", "0"], os.environ | refusal.variables(self.library)
            with subprocess.Popen(
                    words, stdin=subprocess.PIPE, stdout=subprocess.PIPE, stderr=errors, env=variables) as started:
                late = threading.Timer(SECONDS, started.kill)
                late.start()
                # The program may have ended before it has read everything.
                with contextlib.suppress(BrokenPipeError):
                    started.stdin.write(TEXT)
                    started.stdin.flush()
                first = started.stdout.readline()
                got = clients(int(first.split()[1]), idle) if first.startswith(b"listening") else {}
                with contextlib.suppress(BrokenPipeError):
                    started.stdin.close()
                rest = started.stdout.read()
                status = started.wait()
                late.cancel()
            errors.seek(0)
            # The program's lines precede the library's line.
            told = b"".join(errors.read().splitlines(keepends=True)[-1:])
            return Published(Answer(status, (first + rest).decode(errors="backslashreplace"), count_of(told)), got)


def clients(port: int, idle: float) -> dict[str, bytes]:
    """Returns what the clients get, which run concurrently."""
    with ThreadPoolExecutor(len(SUBSCRIBERS)) as pool:
        # If no thread serves the clients, their connections are not ended before the input ends.
        found = pool.map(lambda subscriber: sent_to(port, whole_publisher(), subscriber, idle, idle), SUBSCRIBERS)
        return {subscriber.slot: sent for subscriber, sent in zip(SUBSCRIBERS, found)}


def whole_publisher() -> Publisher:
    """Returns a publisher that has made all commits."""
    made = Publisher((TABLE,))
    for commands in COMMITS:
        made.commit(commands)
    return made


def publisher_of(answers: list[str], unanswered: int = 0) -> Publisher | None:
    """Returns the publisher that gives these answers and has then made some more commits, or None if an answer is
    wrong."""
    made = Publisher((TABLE,))
    for commands, answer in zip(COMMITS, answers):
        if answer == f"commit {len(made.log) + 1}\n":
            made.commit(commands)
        elif answer != "refused OutOfMemory\n":
            return None
    for commands in COMMITS[len(answers):len(answers) + unanswered]:
        made.commit(commands)
    return made


def fault_of(found: Published) -> str | None:
    """Returns what is wrong with a run, which may have been refused memory."""
    answer = found.answer
    if answer.refused is None or answer.status not in (0, NO_MEMORY):
        return f"status {answer.status}, {answer.output!r}, {answer.refused} refused"
    lines = answer.output.splitlines(keepends=True)
    if answer.status == NO_MEMORY and lines[-1:] != [OUT_OF_MEMORY]:
        return f"status {answer.status}, {answer.output!r}"
    last = lines.pop()
    if lines and not LISTENING.fullmatch(lines.pop(0)) or len(lines) > len(COMMITS):
        return f"the first line, or too many: {answer.output!r}"
    publisher = publisher_of(lines)
    if publisher is None or answer.status == 0 and not is_closed(last, lines, publisher, found.got):
        return f"status {answer.status}, {answer.output!r}"
    # A run that gives up may have made a commit for whose answer there was no memory, and clients may have it.
    sent = publisher if answer.status == 0 else publisher_of(lines, unanswered=1)
    for subscriber in SUBSCRIBERS:
        got = without_keepalives(found.got.get(subscriber.slot, b""), sent, subscriber)
        if not is_first_part(got, sent, subscriber):
            return f"{subscriber.slot} gets {found.got[subscriber.slot][-200:]!r}"
    return None


def without_keepalives(got: bytes, publisher: Publisher, subscriber: Subscriber) -> bytes:
    """Returns what a client got, without keepalives. After its input has ended, a publisher requests a reply every 50
    ms until a client has confirmed everything; such a keepalive goes out if the client's thread has not yet sent the
    last commits by then."""
    frames, left = messages.frames_of(got)
    kept: list[bytes] = []
    for frame in frames:
        if messages.without_times(frame) not in keepalives_after(kept, publisher, subscriber):
            kept.append(frame)
    if left and any(it.startswith(left[:5]) for it in keepalives_after(kept, publisher, subscriber)):
        left = b""
    return b"".join(kept) + left


def keepalives_after(frames: list[bytes], publisher: Publisher, subscriber: Subscriber) -> list[bytes]:
    """Returns the keepalives that may come after these frames. Between two transactions, each gives a position from the
    end of the first to the beginning of the second."""
    is_between = frames == [messages.COPY_BOTH_RESPONSE] or frames and messages.is_commit(frames[-1])
    first = messages.end_in(frames, 64)
    begins = [listed[0][0] for listed in publisher.transactions(subscriber, first)]
    last = begins[0] if begins else publisher.end()
    return [messages.keepalive(position) for position in range(first, last + 1, 64)] if is_between else []


def is_closed(last: str, answers: list[str], publisher: Publisher, got: dict[str, bytes]) -> bool:
    """Returns whether all lines were answered, and the last one gives the number of commits, and at least as many
    connections as there were clients that got something, but not more than there are subscribers."""
    closed = CLOSED.fullmatch(last)
    served = sum(bool(sent) for sent in got.values())
    return closed is not None and len(answers) == len(COMMITS) and int(closed[1]) == len(publisher.log) and (
        served <= int(closed[2]) <= len(SUBSCRIBERS))


def is_whole(found: Published) -> bool:
    """Returns whether everything was done, and the clients got everything."""
    publisher = whole_publisher()
    return found.answer.output.endswith(f"commit {len(COMMITS)}\nclosed {len(COMMITS)} {len(SUBSCRIBERS)}\n") and all(
        messages.without_times(without_keepalives(found.got[it.slot], publisher, it)) == whole_stream(publisher, it)
        for it in SUBSCRIBERS)


def refused_publishes(publishing: Publishing) -> Iterator[tuple[Refusal, Published]]:
    """Makes runs in which some requests are refused, up to runs that meet no refusal; and the same with all later
    requests refused."""
    return refused_in_turn(publishing.run, STRIDE, STRIDE_AFTER)


def refused_threads(publishing: Publishing) -> Iterator[tuple[Refusal, Published]]:
    """Makes runs in which some threads are refused, and others in which all later ones are refused too."""
    refusals = [Refusal(number, and_after, "THREAD") for number in THREADS for and_after in (False, True)]
    with ThreadPoolExecutor(AT_A_TIME) as pool:
        yield from zip(refusals, pool.map(lambda it: publishing.run(it, THREADS_IDLE_SECONDS), refusals))
