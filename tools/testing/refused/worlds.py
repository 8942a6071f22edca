"""The answers that `simulate` may give if memory is refused: the model's worlds that agree with its lines so far.

A commit that is refused memory changes nothing. Any other step that is refused memory loses its connection, after some
of the bytes that it would have moved. So the subscriber's position, and the confirmation that the publisher has
received, are those before the step or those after one of the frames. Each of these is a world of its own, and later
lines have to be those of one of them.
"""

import copy
from collections.abc import Iterator
from dataclasses import dataclass

from model.worlds import Step, Subscriber, World

# The lines of steps that were refused memory.
REFUSED = {"commit": "refused OutOfMemory"}
LOST = "out of memory"

# Answers that are never replaced by out of memory.
NEEDS_NONE = {
    "refused EmptyTransaction", "refused TooManyCommands", "refused LogFull", "no subscriber", "already open",
    "not open", "not started", "idle", "lost",
}


@dataclass
class Place:
    """A world, how many lines it has answered, and how many of these were refusals."""

    world: World
    line: int = 0
    refused: int = 0


def follow(places: list[Place], step: Step, lines: list[str]) -> list[Place]:
    """Returns the worlds after a step that agree with the lines."""
    return [after for place in places for after in after_step(place, step, lines)]


def after_step(place: Place, step: Step, lines: list[str]) -> Iterator[Place]:
    """Yields the worlds after a step in one world."""
    refusal = REFUSED.get(step[0], LOST)
    if step[0] != "view" and lines[place.line:place.line + 1] == [refusal]:
        for world in after_refusal(place.world, step):
            yield Place(world, place.line + 1, place.refused + 1)
        return
    # A text in a row may contain a newline.
    answer = "\n".join(place.world.step(step)).split("\n")
    end = place.line + len(answer)
    if lines[place.line:end] == answer and (step[0] != "view" or divides(place.world)):
        yield Place(place.world, end, place.refused)


def after_refusal(world: World, step: Step) -> Iterator[World]:
    """Yields the worlds after a step that is refused memory. There are none if the step needs no memory."""
    made = copy.deepcopy(world)
    if made.step(step)[0] in NEEDS_NONE:
        return
    if step[0] == "commit":
        yield world
        return
    before, after = world.subscribers[step[1]], made.subscribers[step[1]]
    for position in positions(before, after):
        for confirmed in confirmations(before, after):
            if confirmed <= max(position, before.confirmed):
                lost = copy.deepcopy(world)
                subscriber = lost.subscribers[step[1]]
                subscriber.connection, subscriber.position, subscriber.confirmed = None, position, confirmed
                yield lost


def positions(before: Subscriber, after: Subscriber) -> set[int]:
    """Returns the positions that a subscriber may have within a step that takes it from one state to another."""
    told = {it for it in after.connection.down.told if it is not None}
    return {before.position} | {it for it in told if before.position < it <= after.position}


def confirmations(before: Subscriber, after: Subscriber) -> set[int]:
    """Returns the positions that the subscriber may have confirmed to the publisher within a step."""
    told = {it[0] for it in after.connection.up.told if it != "start"}
    return {before.confirmed} | {it for it in told if before.confirmed < it <= after.confirmed}


def divides(world: World) -> bool:
    """Returns whether the subscribers' rows are a division of the publisher's rows, if all have applied all commits."""
    length = len(world.database.log)
    if any(subscriber.applied != length for subscriber in world.subscribers):
        return True
    shown = [world.lines_of(subscriber.shard) for subscriber in world.subscribers]
    return sorted(line for lines in shown for line in lines) == sorted(world.lines_of(world.database.tables))
