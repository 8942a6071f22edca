"""Runs attacks for as long as requested, with several processes and one server."""

import argparse
import collections
import contextlib
import functools
import multiprocessing
import os
import pathlib
import random
import signal
import threading
import time
from collections.abc import Iterator

from server import server, stop_on_endings

from . import batches
from .batches import Place, Result
from .by_hand import PLACES, WRITTEN, by_hand
from .comparison import Finding
from .conditions import Takes
from .designs import KINDS, Designs
from .kinds import Kind
from .known import Known, prepare
from .topologies import Topologies

TOOLS = pathlib.Path(__file__).resolve().parent.parent.parent
# The number of designs and of topologies in a database.
DESIGNS, TOPOLOGIES = 10, 5
SETTINGS = "-c max_replication_slots=80 -c max_connections=60 -c max_wal_senders=0 -c log_min_messages=panic"


def arguments(words: list[str], help: str) -> argparse.Namespace:
    """Parses the command line."""
    parser = argparse.ArgumentParser(prog="attack", description=help,
        formatter_class=argparse.RawDescriptionHelpFormatter)
    parser.add_argument("--seed", type=int, help="repeat the databases of this seed; by default the seed is new")
    parser.add_argument("--minutes", type=float, help="how long to go on; without it, until the designs are done")
    parser.add_argument("--designs", type=int, default=300, help="how many random tables [default: 300]")
    parser.add_argument("--topologies", type=int, default=30, help="how many trees of partitions [default: 30]")
    names = [it.name for it in KINDS]
    parser.add_argument("--kinds", nargs="+", metavar="KIND", choices=names, default=names,
                        help=f"only random tables of these kinds of columns, of {', '.join(names)}")
    parser.add_argument("--only", type=int, metavar="N", help="only the database of this number")
    parser.add_argument("--jobs", type=int, default=len(os.sched_getaffinity(0)), help="how many at a time")
    parser.add_argument("--verdicts", action="store_true", help="print each verdict")
    parser.add_argument("--server", metavar="TEXT",
    help="the connection text of a running server, as 'host=/tmp user=me'")
    parser.add_argument("--judge", default=str(TOOLS / "judge"), help="another judge to attack")
    return parser.parse_args(words)


@functools.cache
def known_at(words: str) -> Known:
    """Returns what a process knows about the conditions that the server accepts."""
    return Known(words)


def result_of(place: Place, seed: int, kinds: list[str], task: tuple[int, str, int]) -> tuple[int, Result]:
    """Returns the result for the database with a number."""
    number, kind, count = task
    draw = functools.partial(drawer, known_at(place.words).takes, kind, [it for it in KINDS if it.name in kinds])
    name = f"attack_by_hand{-number}" if number < 0 else f"attack_{number}"
    try:
        return number, batches.attack(place, name, seed * 100_000 + number, draw, count, PLACES.get(kind))
    except Exception as fault:  # A failure for one database does not end the attack.
        result = Result()
        result.counts[f"the attack itself fails at {number}: {type(fault).__name__}: {fault}"] += 1
        return number, result


def drawer(takes: Takes, kind: str, kinds: list[Kind], chance: random.Random) -> batches.Draw:
    """Returns a function that draws tables or trees, or that returns those that are written by hand."""
    if kind in WRITTEN:
        return dict((it.name.replace("h", "d"), it) for it in by_hand(kind)).__getitem__
    return Topologies(chance, takes).design if kind == "topologies" else Designs(chance, takes, kinds).design


def tasks(given: argparse.Namespace) -> Iterator[tuple[int, str, int]]:
    """Yields databases by number; without end if minutes are given."""
    yield from ((-1 - place, kind, len(WRITTEN[kind])) for place, kind in enumerate(WRITTEN))
    kinds = ["designs"] * -(-given.designs // DESIGNS) + ["topologies"] * -(-given.topologies // TOPOLOGIES)
    random.Random(0).shuffle(kinds)
    number = 0
    while True:
        for kind in kinds:
            yield number, kind, DESIGNS if kind == "designs" else TOPOLOGIES
            number += 1
        if not given.minutes:
            return


def run(words: list[str], help: str) -> int:
    """Runs the attack, and returns the exit status: 1 if something differs."""
    given = arguments(words, help)
    seed = given.seed if given.seed is not None else random.SystemRandom().randrange(10**6)
    print(f"attack with seed {seed}", flush=True)
    stop_on_endings()
    with contextlib.nullcontext() if given.server else server(SETTINGS) as started:
        place = Place(given.server or f"host={started.folder} user=postgres", given.judge)
        prepare(place.words)
        counts, findings = gather(given, place, seed)
    tell(counts)
    print(f"{findings} differences with seed {seed}")
    return 1 if findings or any(it.startswith("the attack itself") for it in counts) else 0


def gather(
    given: argparse.Namespace, place: Place, seed: int,
) -> tuple[collections.Counter[str], int]:
    """Creates all databases, and prints each difference as soon as it is found."""
    counts: collections.Counter[str] = collections.Counter()
    findings, end = 0, time.monotonic() + 60 * (given.minutes or 10**6)
    made = functools.partial(result_of, place, seed, given.kinds)
    wanted = (it for it in tasks(given) if given.only in (None, it[0]))
    # The pool takes tasks as fast as they come, so no more tasks are generated than are being processed.
    room = threading.Semaphore(2 * given.jobs)
    stopped = threading.Event()
    # A worker is killed by a signal as usual: if it exited in the middle of a wait, the others would keep waiting.
    with multiprocessing.Pool(given.jobs, signal.signal, (signal.SIGTERM, signal.SIG_DFL)) as pool:
        try:
            for number, result in pool.imap_unordered(made, until(end, wanted, room, stopped)):
                room.release()
                counts += result.counts
                for line in result.verdicts if given.verdicts else ():
                    print(line, flush=True)
                for finding in result.findings:
                    findings += 1
                    show(finding, result, seed, number)
        finally:
            # The generator of tasks may be waiting for room, and the pool for the generator.
            stopped.set()
            room.release()
        pool.close()
        pool.join()
    return counts, findings


def until(
    end: float, wanted: Iterator[tuple[int, str, int]], room: threading.Semaphore, stopped: threading.Event,
) -> Iterator[tuple[int, str, int]]:
    """Yields tasks, each when there is room for it, until a time or until stopped."""
    for task in wanted:
        room.acquire()
        if stopped.is_set() or time.monotonic() > end:
            return
        yield task


def show(finding: Finding, result: Result, seed: int, number: int) -> None:
    """Prints a difference, with the statements that reproduce it."""
    print(f"== {finding.kind}")
    print(f"   {finding.words}")
    if finding.row:
        print(f"   row: {finding.row}")
    print(f"   judge: {finding.verdict.words()}")
    for statement in (*result.setup, *finding.design.statements()):
        print(f"   {statement};" if not statement.startswith("\\") else f"   {statement}")
    takers = ", ".join(f"s{it.taker} takes {it.name}" for it in finding.design.publications if it.taker is not None)
    print(f"   {takers}; again: tools/attack --seed {seed} --only {number}", flush=True)


def tell(counts: collections.Counter[str]) -> None:
    """Prints the counts, one per line."""
    for what, count in sorted(counts.items()):
        print(f"{count:8,} {what}")
