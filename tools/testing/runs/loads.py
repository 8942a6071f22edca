"""Runs of `serve` with many clients and many commits, and the memory that they use."""

import threading
from collections.abc import Iterator
from dataclasses import dataclass

from served import load
from served.program import NotStarted, Started, serving, use_up
from tally import Tally

# How many connections are accepted: more than needed by clients that are lost and try to come back.
CONNECTIONS = 400

# How many seconds a run may take until it listens, and from then to its end, also on a busy machine.
LONGEST = 300

# By how much the memory may be greater if some clients are rough: by this fraction, and by this many bytes for what is
# kept of their earlier connections.
PART = 0.25
KEPT = 40_000_000


@dataclass(frozen=True)
class Load:
    """A run in which all clients read continuously, and one in which some do not, with the same commits. The second run
    uses about as much memory as the first, both while some have stopped and when all have their streams."""

    name: str = "serve of 100,000 commits"

    def check(self, tally: Tally) -> None:
        """Makes both runs."""
        made = load.sharding()
        streams, text = load.Streams(made), made.input()
        plain = self.sizes(tally, streams, text, are_rough=False)
        rough = self.sizes(tally, streams, text, are_rough=True)
        for when, expected, found in zip(("while some have stopped", "when all have all"), plain, rough):
            most = expected * (1 + PART) + KEPT
            tally.check(f"{self.name}: memory {when}, {found:,} for {expected:,} bytes", found <= most, True)
        if not plain or not rough:
            tally.check(f"{self.name}: memory", (plain, rough), "both measured")

    def sizes(self, tally: Tally, streams: load.Streams, text: str, are_rough: bool) -> list[int]:
        """Returns the sizes of a run's memory, or nothing if it did not get that far."""
        name = f"{self.name} with {'rough' if are_rough else 'plain'} clients"
        try:
            with serving(text, "--connections", str(CONNECTIONS), seconds=LONGEST) as (program, port):
                late = threading.Timer(LONGEST, program.process.kill)
                late.start()
                try:
                    return self.run(tally, name, program, load.Clients(streams, port, are_rough))
                finally:
                    late.cancel()
        except (NotStarted, OSError) as fault:
            tally.check(name, f"{type(fault).__name__}: {fault}", "no fault")
            return []

    def run(self, tally: Tally, name: str, program: Started, clients: load.Clients) -> list[int]:
        """Makes the run, with a program that listens."""
        sizes = []
        with clients.started() as findings:
            try:
                for barrier in clients.stopped, clients.whole:
                    barrier.wait()
                    sizes.append(load.resident(program.process.pid))
            except threading.BrokenBarrierError:
                sizes = []
            for found in [it for finding in findings for it in finding.result()]:
                tally.check(f"{name}: {found[0]}", *found[1:])
        use_up(program, clients.port)
        last = f"closed {load.COMMITS} {CONNECTIONS}\n"
        tally.check(f"{name}: the end", program.end(LONGEST), (0, [last]))
        return sizes


def cases() -> Iterator[Load]:
    """Yields both runs together."""
    yield Load()
