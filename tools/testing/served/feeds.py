"""Random workloads for the shop, and relays that cut connections."""

import contextlib
import random
import socket
import threading
from collections.abc import Iterator
from dataclasses import dataclass

from .publisher import Command, Delete, Insert, Publisher, Row, Truncate, Update
from .shop import SHOP

REGIONS = [None, 5, 99, 100, 250]
NOTES = [None, "", "d'été", "x" * 2_000]
CODES = ["a", "b", "c", "d", "e"]

STARTS = b"START_REPLICATION"


def workload(chosen: random.Random) -> list[list[Command]]:
    """Returns some commits without faults, each command of which fits the tables as they are then."""
    made = Publisher(SHOP.tables)
    commits = []
    for _ in range(chosen.randrange(3, 25)):
        commits.append([])
        for _ in range(chosen.choice([1, 1, 2, 3, 20])):
            commits[-1].append(command(chosen, made))
            made.change(commits[-1][-1])
    return commits


def command(chosen: random.Random, made: Publisher) -> Command:
    """Returns a command that has no fault now."""
    kind = chosen.random()
    name = chosen.choice([table.name for table in SHOP.tables])
    rows = made.rows[name]
    if kind < 0.02:
        return Truncate((name,))
    if not rows or kind < 0.4:
        return Insert(name, new_row(chosen, made, name, None))
    key = chosen.choice(sorted(rows))
    if kind < 0.55:
        return Delete(name, key)
    return Update(name, key, new_row(chosen, made, name, key))


def new_row(chosen: random.Random, made: Publisher, name: str, old: Row | None) -> Row:
    """Returns a row whose key no other row has; half of the time, it is the old row's key."""
    while True:
        row = random_row(chosen, name)
        if old is not None and chosen.random() < 0.7:
            row = with_key(made, name, row, old)
        others = [it for key, it in made.rows[name].items() if key != old]
        unique = [made.table(name)[1].key_of, made.table(name)[1].identity_of]
        if not any(of(row) == of(other) for other in others for of in unique):
            return row


def with_key(made: Publisher, name: str, row: Row, key: Row) -> Row:
    """Returns the row with another key."""
    values = dict(zip(made.table(name)[1].key, key))
    return tuple(values.get(at, value) for at, value in enumerate(row))


def random_row(chosen: random.Random, name: str) -> Row:
    """Returns a random row of a table."""
    match name:
        case "orders":
            paid = chosen.choice([None, True, False])
            return chosen.randrange(60), chosen.choice(REGIONS), chosen.randrange(-9, 9), chosen.choice(NOTES), paid
        case "stock":
            return chosen.randrange(20), chosen.choice(["", "pen", "ink"]), chosen.randrange(100)
    return chosen.randrange(40), chosen.choice([*CODES, f"z{chosen.randrange(1_000)}"]), chosen.choice([None, "Ada"])


@dataclass
class Cuts:
    """Relays to a port, and cuts the next streams, each after this many bytes."""

    port: int
    left: list[int]
    made: int = 0

    def accept(self, listener: socket.socket) -> None:
        """Relays each connection in threads of its own."""
        with contextlib.suppress(OSError):
            while True:
                client, _ = listener.accept()
                threading.Thread(target=self.relay, args=(client,), daemon=True).start()

    def relay(self, client: socket.socket) -> None:
        """Relays a connection."""
        with contextlib.suppress(OSError), client, socket.create_connection(("127.0.0.1", self.port)) as other:
            budget: list[int] = []
            down = threading.Thread(target=self.relay_down, args=(other, client, budget), daemon=True)
            down.start()
            with contextlib.suppress(OSError):
                while piece := client.recv(1 << 16):
                    if STARTS in piece and self.left:
                        budget.append(self.left.pop())
                    other.sendall(piece)
            end(other)
            down.join()

    def relay_down(self, source: socket.socket, sink: socket.socket, budget: list[int]) -> None:
        """Relays what is sent to the client, up to this many bytes if there is a budget."""
        with contextlib.suppress(OSError):
            while piece := source.recv(1 << 16):
                if budget:
                    piece = piece[:budget[0]]
                    budget[0] -= len(piece)
                sink.sendall(piece)
                if budget and budget[0] == 0:
                    self.made += 1
                    break
        end(source)
        end(sink)


def end(connection: socket.socket) -> None:
    """Shuts a connection down in both directions."""
    with contextlib.suppress(OSError):
        connection.shutdown(socket.SHUT_RDWR)


@contextlib.contextmanager
def cutting_some(port: int, left: list[int]) -> Iterator[tuple[Cuts, int]]:
    """Runs a relay to a port, and yields it with its own port."""
    with socket.create_server(("127.0.0.1", 0), backlog=64) as listener:
        cuts = Cuts(port, left)
        threading.Thread(target=cuts.accept, args=(listener,), daemon=True).start()
        try:
            yield cuts, listener.getsockname()[1]
        finally:
            listener.shutdown(socket.SHUT_RDWR)
