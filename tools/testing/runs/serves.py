"""What clients of `pgshard serve` get, whatever others do meanwhile, and how it ends."""

import socket
from collections.abc import Callable, Iterator
from dataclasses import dataclass

from programs import pgshard
from served import beside, lost, whole
from served.program import NotStarted, serving, use_up
from served.publisher import Command, Delete, Insert, Publisher, Update
from served.sharding import Sharding
from served.shardings import HALVES_CATALOG, S0, S1, crowd, growing, halves, large
from served.shop import LONDON, SHOP, TOKYO
from tally import Tally

from .case import SECONDS, Case, Outline
from .catalogs import C
from .simulations import three_parts

# Commits of which some are refused, given by the numbers of their steps.
SOME_REFUSED: list[list[Command]] = [
    [Insert("t", (1, "a"))],
    [Insert("t", (2, "b")), Insert("t", (1, "b"))],
    [],
    [Delete("t", (3,))],
    [Update("t", (1,), (100, "a"))],
]
REFUSED = frozenset({2, 3, 4})


# Arguments that are a usage error.
WRONG_WORDS: list[tuple[str, ...]] = [
    (),
    ("45432",),
    ("--port",),
    ("--port", "0"),
    ("--port", "65536"),
    ("--port", "-1"),
    ("--port", "x"),
    ("--port", "45432", "--port", "45432"),
    ("--limit", "1"),
    ("--port", "45432", "--limit", "0"),
    ("--port", "45432", "--connections", "0"),
    ("--port", "45432", "--connections", "1001"),
]

# Commits of one row each, which go to the two subscribers.
MOST_COMMITS: list[list[Command]] = [[Insert("t", (key, None))] for key in range(-50_000, 50_000)]

# How many connections are accepted if clients may try more than once.
MANY = 40
VERY_MANY = 300


@dataclass(frozen=True)
class Run:
    """A run of serve with clients, which makes the commits of a sharding. It accepts a connection for each subscriber,
    or this many."""

    name: str
    sharding: Sharding
    clients: Callable[[int, Publisher], whole.Findings]
    connections: int | None = None
    words: tuple[str, ...] = ()

    def check(self, tally: Tally) -> None:
        """Makes the run. If clients may make fewer connections than are accepted, others are made and ended."""
        publisher = self.sharding.publisher()
        more = () if self.connections is None else ("--connections", str(self.connections))
        try:
            with serving(self.sharding.input(), *self.words, *more) as (program, port):
                for what, found, expected in self.clients(port, publisher):
                    tally.check(f"{self.name}: {what}", found, expected)
                if more:
                    use_up(program, port)
                accepted = self.connections or len(self.sharding.subscribers)
                last = f"closed {len(publisher.log)} {accepted}\n"
                tally.check(f"{self.name}: the end", program.end(), (0, [last]))
        except (NotStarted, OSError) as fault:
            tally.check(self.name, f"{type(fault).__name__}: {fault}", "no fault")


@dataclass(frozen=True)
class PortInUse:
    """A run of serve on a port that another program uses."""

    name: str = "serve at a port that is in use"

    def check(self, tally: Tally) -> None:
        with socket.create_server(("127.0.0.1", 0)) as taken:
            port = str(taken.getsockname()[1])
            status, output = pgshard("serve", "--port", port, text=halves([]).input(), seconds=SECONDS)
        tally.check(self.name, (status, output), (4, ""))


def runs() -> Iterator[Run]:
    """Yields the runs with clients."""
    yield Run("serve of two commits", halves(whole.TWO_COMMITS), whole.written_bytes)
    yield Run("serve of no commit", halves([]), whole.together((S0, S1)))
    yield Run("serve of refused commits", halves(SOME_REFUSED, REFUSED), whole.together((S0, S1)))
    limited = halves(whole.TWO_COMMITS, frozenset({2}))
    yield Run("serve with a log of one commit", limited, whole.together((S0, S1)), words=("--limit", "1"))
    yield Run("serve of a shop", SHOP, whole.together((LONDON, TOKYO)))
    yield Run("serve of commits of 1 to 64 commands", growing(), whole.together((S0, S1)))
    crowded = crowd()
    yield Run("serve of 32 subscribers", crowded, whole.together(crowded.subscribers))
    yield Run("serve of 1,000 connections", halves(whole.TWO_COMMITS), whole.together((S0, S1)), 1_000)
    yield Run("serve of 100,000 commits", halves(MOST_COMMITS), whole.together((S0, S1)))
    yield Run("serve with clocks and times", SHOP, whole.times)
    yield Run("serve byte by byte", SHOP, whole.byte_by_byte)
    yield Run("serve of a client that is late", SHOP, whole.late)
    yield Run("serve from other positions", SHOP, whole.from_positions, MANY)
    yield Run("serve of a client that is lost", SHOP, lost.lost_and_back, MANY)
    yield Run("serve of a client that is lost again and again", SHOP, lost.lost_again, VERY_MANY)
    yield Run("serve of a client that confirms", SHOP, lost.confirms, MANY)
    yield Run("serve of a client that confirms too much", SHOP, lost.confirms_too_much, MANY)
    yield Run("serve of a client that confirms with its start", SHOP, lost.confirms_with_its_start, MANY)
    yield Run("serve of a client that confirms what is on its way", large(), lost.confirms_what_is_on_its_way, MANY)
    yield Run("serve of a client that confirms what it was sent", SHOP, lost.confirms_what_it_was_sent, MANY)
    yield Run("serve of two clients of one slot", SHOP, beside.one_slot, 3)
    yield Run("serve of bad starts", SHOP, beside.bad_starts, len(beside.BAD_STARTS) + 2)
    yield Run("serve of a client that never reads", large(), beside.never_reads)
    yield Run("serve of a client that asks for a reply", large(), whole.asks_for_replies)
    for name, strange in beside.STRANGE:
        yield Run(f"serve beside {name}", SHOP, beside.beside(strange), MANY)


def inputs() -> Iterator[Case]:
    """Yields runs that end before they listen, or because of their arguments."""
    words = ("serve", "--port", "45432")
    b, commit = HALVES_CATALOG, "COMMIT INSERT t (1, 'a');"
    for place, script in (0, "VIEW;"), (26, f"{commit} OPEN 0; {commit}"), (27, f"{commit}\n\nPUMP 0;"):
        yield Case(f"serve of {script!r}", words, three_parts(b, C, script), 3, f"script {place} Expected\n")
    yield Case("serve of a bad script", words, three_parts(b, C, "COMMIT"), 3, "script 6 Expected\n")
    refused = "refused NotOwner public.t 0\n"
    yield Case("serve of a refused sharding", words, three_parts(b, "o 0\n", commit), 1, refused)
    yield Case("serve of a bad certificate", words, three_parts(b, "x\n", commit), 3, "certificate 1 BadToken\n")
    yield Case("serve of a bad catalog", words, three_parts("CREATE;\n", C, commit), 3, "catalog 6 Expected\n")
    yield Case("serve of two parts", words, f"{b}%%\n{C}", 3, "input\n")
    for wrong in WRONG_WORDS:
        yield Case(f"serve {' '.join(wrong)}", ("serve", *wrong), b, 2, Outline(begin="command line\n"))
    for part in "--port", "--limit", "--connections":
        yield Case(f"the help of serve has {part}", ("serve", "--help"), "", 0, Outline(within=part))


def cases() -> Iterator[Run | PortInUse | Case]:
    """Yields the runs with clients, and the others."""
    yield from runs()
    yield PortInUse()
    yield from inputs()
