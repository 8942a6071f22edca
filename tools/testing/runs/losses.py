"""Connections that are lost after each byte in either direction, with the model's answers."""

from collections.abc import Iterator

from model.worlds import ALL, Step, World
from programs import pgshard
from random_cases.case import parts
from refused.scripts import CATALOG, FIRST_ROWS, MOVES, VIEW, catalog_text, script_text

from .case import SECONDS, Case

# A subscriber asks for its stream, and two commits wait for it, and then a keepalive.
STREAM: list[Step] = [
    FIRST_ROWS, MOVES, ("open", 0), ("hear", 0, ALL), ("take", 0), ("take", 0), ("keep", 0, True)]

# The Query of the start waits for the publisher.
START: list[Step] = [FIRST_ROWS, ("open", 0)]

# Two statuses wait for the publisher, each after another commit. The first one requests a reply.
STATUSES: list[Step] = [
    FIRST_ROWS, MOVES, ("open", 0), ("hear", 0, ALL), ("take", 0), ("deliver", 0, ALL), ("report", 0, True),
    ("take", 0), ("deliver", 0, ALL), ("report", 0, False)]

# What follows the loss, and then the reconnection of the subscriber.
AFTER: list[Step] = [("lose", 0), VIEW, ("open", 0), ("pump", 0), VIEW]


def waiting(steps: list[Step]) -> tuple[int, int]:
    """Returns how many bytes wait for the subscriber after these steps, and how many for the publisher."""
    world = World(CATALOG)
    for step in steps:
        world.step(step)
    connection = world.subscribers[0].connection
    return connection.down.length - connection.down.moved, connection.up.length - connection.up.moved


def scripts() -> Iterator[tuple[str, list[Step]]]:
    """Yields names and steps."""
    for count in range(waiting(STREAM)[0] + 1):
        yield f"a stream is lost after {count} bytes", [*STREAM, ("deliver", 0, count), *AFTER]
    for count in range(waiting(START)[1] + 1):
        yield f"a start is lost after {count} bytes", [*START, ("hear", 0, count), ("take", 0), *AFTER]
    for count in range(waiting(STATUSES)[1] + 1):
        yield f"statuses are lost after {count} bytes", [*STATUSES, ("hear", 0, count), ("deliver", 0, ALL), *AFTER]


def cases() -> Iterator[Case]:
    """Yields a run of simulate for each."""
    catalog = catalog_text()
    _, certificates = pgshard("make", text=catalog, seconds=SECONDS)
    for name, steps in scripts():
        world = World(CATALOG)
        lines = "".join(f"{line}\n" for step in steps for line in world.step(step))
        yield Case(name, ("simulate",), parts(catalog, certificates, script_text(steps)), 0, lines)
