"""A stream: what pgshard serve sends is relayed to a client and recorded, or a recording is sent again."""

import asyncio
import time
from collections.abc import Awaitable, Callable, Sequence
from typing import Any

from pgshard_tools.fronting import frames
from pgshard_tools.fronting.frames import COPY_DATA, COPY_DONE, KEEPALIVE, STATUS, TERMINATE, XLOG_DATA, Frame
from pgshard_tools.fronting.greeting import Denied
from pgshard_tools.fronting.peer import Lost, Peer
from pgshard_tools.fronting.recording import BEGIN_OF_LOG, COMMIT_END, KEPT_POSITION, LETTER, Recording, number
from pgshard_tools.fronting.slots import Slot

# The two positions in an XLogData; and in a status, the flushed position, and the last byte, which says whether a reply
# is requested.
POSITIONS = slice(1, 17)
FLUSHED = slice(9, 17)
WANT = 33

# Opens a connection to pgshard serve that streams from a position on.
Connect = Callable[[int], Awaitable[Peer]]


class Stream:
    """One client's stream, until either side ends it."""

    def __init__(self, client: Peer, slot: Slot | None, patience: float, limit: float) -> None:
        self.client = client
        # The slot that the client's statuses confirm.
        self.slot = slot
        # How many seconds the client may be silent, or 0 for no limit, and how many pgshard serve has for an answer.
        self.patience = patience
        self.limit = limit
        self.publisher: Peer | None = None
        self.heard = time.monotonic()
        self.is_done = asyncio.Event()
        # The position that the client has been sent.
        self.position = 0

    async def relay(self, publisher: Peer, recording: Recording, told: Sequence[Frame]) -> bool:
        """Relays a stream of pgshard serve, which has already sent something. Returns whether both sides ended the
        stream, so that the client's connection continues."""
        self.publisher = publisher
        return await self.run(self.relay_down(publisher, recording, told))

    async def repeat(self, recording: Recording, position: int) -> bool:
        """Sends the recording from a position on, as it grows, to a subscriber that is catching up."""
        return await self.run(self.repeat_down(recording, position))

    async def resume(self, recording: Recording, position: int, connect: Connect) -> bool:
        """Sends the recording from a position on, and then relays what pgshard serve sends after it."""
        return await self.run(self.resume_down(recording, position, connect))

    async def run(self, speaking: Awaitable[None]) -> bool:
        """Sends to the client, reads from it, and watches for silence."""
        up = asyncio.create_task(self.listen())
        down = asyncio.ensure_future(speaking)
        watch = asyncio.create_task(self.watch())
        try:
            return await self.follow(up, down, watch)
        finally:
            for task in up, down, watch:
                task.cancel()
            await asyncio.gather(up, down, watch, return_exceptions=True)

    async def follow(
            self, up: "asyncio.Future[bool]", down: "asyncio.Future[None]", watch: "asyncio.Future[None]") -> bool:
        """Waits until both directions have ended, or one has ended both."""
        pending: set[asyncio.Future[Any]] = {up, down, watch}
        while not (up.done() and down.done()):
            limit = self.limit if up.done() else None
            done, pending = await asyncio.wait(pending, timeout=limit, return_when=asyncio.FIRST_COMPLETED)
            if not done and self.publisher is not None:
                raise Lost(self.publisher, f"did not end the stream within {self.limit:g} seconds")
            if down.done() and self.client.ended.is_set():
                # What the client sent before it disconnected is still passed on.
                await asyncio.wait([up], timeout=self.limit)
            if up.done() and not up.result():
                return False
            for task in down, watch:
                if task.done():
                    task.result()
        return True

    async def listen(self) -> bool:
        """Passes on what the client sends. Returns whether the client has ended the stream, after waiting for that.

        Requested replies are also given here: pgshard serve gives none after it has made and sent all commits, and a
        subscriber waits for at most a minute.
        """
        while True:
            await asyncio.sleep(0)
            kind, body = await self.client.frame()
            self.heard = time.monotonic()
            is_status = kind == COPY_DATA and body[:1] == STATUS
            # What was not sent cannot be confirmed: pgshard serve would end the stream.
            if is_status and self.slot is not None and number(body[FLUSHED]) <= self.position:
                self.slot.confirmed = max(self.slot.confirmed, number(body[FLUSHED]))
            if kind == COPY_DONE:
                self.is_done.set()
            if self.publisher is not None:
                await self.publisher.send(frames.frame(kind, body))
            if kind in (COPY_DONE, TERMINATE):
                return kind == COPY_DONE
            if is_status and any(body[WANT:]):
                await self.client.send(frames.keepalive(self.position))

    async def watch(self) -> None:
        """Requests a reply from a silent client, as a server does after half of wal_sender_timeout, and disconnects it
        if there is none."""
        asked = 0.0
        while True:
            silence = time.monotonic() - self.heard
            if self.patience <= 0:
                await asyncio.Event().wait()
            elif silence >= self.patience:
                raise Lost(self.client, f"said nothing for {self.patience:g} seconds")
            elif silence >= self.patience / 2:
                if asked != self.heard:
                    asked = self.heard
                    self.client.write(frames.keepalive(self.position, wants_reply=True))
                await asyncio.sleep(self.patience - silence)
            else:
                await asyncio.sleep(self.patience / 2 - silence)

    async def relay_down(self, publisher: Peer, recording: Recording, told: Sequence[Frame] = ()) -> None:
        """Relays everything that pgshard serve sends."""
        while True:
            said = [as_server_says(it) for it in told or await publisher.frames()]
            recording.take(said)
            self.position = max([self.position, *map(position_of, said)])
            await self.client.send(b"".join(frames.frame(*it) for it in said))
            if said[-1][0] == COPY_DONE:
                return
            told = ()

    async def replay(self, recording: Recording, position: int) -> None:
        """Sends the recording from a position on, and then a keepalive with its end."""
        for piece in recording.from_position(position):
            await self.client.send(piece)
            if self.is_done.is_set():
                return
        if recording.fault is not None:
            raise Denied("55000", f"the stream is no longer recorded: {recording.fault}")
        self.position = max(recording.reach, position, BEGIN_OF_LOG)
        await self.client.send(frames.keepalive(self.position))

    async def repeat_down(self, recording: Recording, position: int) -> None:
        """Sends the recording, as it grows, until the client has what it needs. A subscriber whose connection is lost
        while a table catches up may need more than had been recorded when this stream began."""
        while not self.is_done.is_set():
            grown = recording.grown
            await self.replay(recording, position)
            position = self.position
            await first_of(grown, self.is_done)
        await self.client.send(frames.frame(COPY_DONE))

    async def resume_down(self, recording: Recording, position: int, connect: Connect) -> None:
        """Sends the recording, and continues with what pgshard serve sends after it."""
        await self.replay(recording, position)
        publisher = await connect(recording.reach)
        if self.is_done.is_set():
            await self.client.send(frames.frame(COPY_DONE))
        else:
            self.publisher = publisher
            await self.relay_down(publisher, recording)


async def first_of(*events: asyncio.Event) -> None:
    """Waits for one of several events."""
    waits = [asyncio.ensure_future(it.wait()) for it in events]
    try:
        await asyncio.wait(waits, return_when=asyncio.FIRST_COMPLETED)
    finally:
        for wait in waits:
            wait.cancel()


def position_of(told: Frame) -> int:
    """Returns the position that a frame gives the client, if it is a Commit or a keepalive; otherwise 0."""
    kind, body = told
    if kind == COPY_DATA and body[:1] == XLOG_DATA and body[LETTER] == b"C":
        return number(body[COMMIT_END])
    return number(body[KEPT_POSITION]) if kind == COPY_DATA and body[:1] == KEEPALIVE else 0


def as_server_says(told: Frame) -> Frame:
    """Returns a frame with the positions that a server sends: that of a Commit is the end of its transaction, which
    clients confirm, and not the Commit's own position."""
    kind, body = told
    if kind == COPY_DATA and body[:1] == XLOG_DATA and body[LETTER] == b"C":
        body = body[:POSITIONS.start] + 2 * body[COMMIT_END] + body[POSITIONS.stop:]
    return kind, body
