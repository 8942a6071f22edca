"""One client's connection, from its first packet to its end."""

import asyncio
from collections.abc import Sequence
from dataclasses import dataclass

from pgshard_tools.fronting import frames
from pgshard_tools.fronting.answers import DROP_FREE_SLOT, Answers, Asker
from pgshard_tools.fronting.frames import (
    COPY_BOTH,
    COPY_DATA,
    COPY_DONE,
    COPY_FAIL,
    EXTENDED,
    KEEPALIVE,
    QUERY,
    SYNC,
    TERMINATE,
    Frame,
    position_text,
)
from pgshard_tools.fronting.greeting import Denied, Terms, greet, welcome
from pgshard_tools.fronting.peer import Lost, Peer, peer_at
from pgshard_tools.fronting.recording import BEGIN_OF_LOG, KEPT_POSITION, Recording, number
from pgshard_tools.fronting.slots import ANEW, COPIES, Refused, Slot
from pgshard_tools.fronting.starting import Start, start_of
from pgshard_tools.fronting.streaming import Stream
from pgshard_tools.fronting.tokens import Token, TooManyTokens, tokens_of

TOO_COMPLEX = frames.error("54001", "statement too complex for pgshard front")
NO_EXTENDED = frames.error("0A000", "pgshard front supports only simple queries")

LOST = frames.error("08006", "the connection to pgshard serve has ended", severity="FATAL")
TOO_LATE = frames.error("57014", "canceling authentication due to timeout", severity="FATAL")


@dataclass(frozen=True)
class Backend:
    """The port of pgshard serve, how many seconds it has for an answer, and how many seconds a client in a stream may
    be silent."""

    port: int
    seconds: float
    patience: float


class Session:
    """A client, whose queries are answered until it starts a stream, and between streams."""

    def __init__(self, client: Peer, answers: Answers, backend: Backend, terms: Terms, number: int) -> None:
        self.client = client
        self.answers = answers
        self.slots = answers.slots
        self.backend = backend
        self.terms = terms
        self.number = number
        self.asker = Asker("")
        # What the log will report that the client did, and whether it is in a stream now.
        self.story = "no startup"
        self.is_streaming = False

    async def run(self) -> str:
        """Serves the client until either side ends. Returns how it ended."""
        try:
            return await self.serve()
        except Lost as lost:
            if lost.peer is not self.client:
                self.client.write(LOST)
            return str(lost)
        except Denied as denied:
            self.client.write(denied.response)
            return str(denied)

    async def serve(self) -> str:
        """Admits the client, and answers its queries. Returns how it ended."""
        try:
            async with asyncio.timeout(self.terms.seconds):
                guest = await greet(self.client, self.terms)
        except TimeoutError:
            self.client.write(TOO_LATE)
            return f"not started within {self.terms.seconds:g} seconds"
        if guest is None:
            return "a request to cancel a query, which is ignored"
        self.asker.database = guest.database
        self.story = f"user {guest.user!r:.70}"
        await self.client.send(welcome(guest, self.answers.settings, self.number))
        await self.answer_queries()
        return "the client ended the connection"

    async def answer_queries(self) -> None:
        """Answers queries until the client ends. After each query, other clients get their turn."""
        while True:
            await asyncio.sleep(0)
            kind, body = await self.client.frame()
            if kind == TERMINATE:
                return
            if kind == QUERY:
                if not await self.answer_query(body.rstrip(b"\0").decode(errors="replace")):
                    return
                await self.client.send(frames.ready(self.asker.in_transaction))
            elif kind in EXTENDED:
                await self.client.send(NO_EXTENDED)
                await self.skip_to_sync()
            elif kind == SYNC:
                await self.client.send(frames.ready())
            elif kind not in (COPY_DATA, COPY_DONE, COPY_FAIL):
                raise Denied("08P01", f"invalid frontend message type {kind[0]}")

    async def skip_to_sync(self) -> None:
        """Skips the messages of a query of the extended protocol."""
        while (await self.client.frame())[0] != SYNC:
            pass
        await self.client.send(frames.ready())

    async def answer_query(self, query: str) -> bool:
        """Answers a query, or serves a stream. Returns whether the connection continues."""
        try:
            tokens = tokens_of(query)
            start = start_of(query, tokens, self.answers.version.startswith("15."))
        except TooManyTokens:
            await self.client.send(TOO_COMPLEX)
            return True
        if start is None:
            await self.wait_for_slot(tokens)
            await self.client.send(self.answers.answer(tokens, self.asker))
            return True
        try:
            self.is_streaming = True
            return await (self.copy(start) if COPIES.fullmatch(start.slot) else self.stream(start))
        except Refused as refused:
            await self.client.send(refused.response)
            return True
        finally:
            self.is_streaming = False

    async def wait_for_slot(self, tokens: Sequence[Token]) -> None:
        """Waits a while for a slot that should be dropped to become free."""
        found = DROP_FREE_SLOT.match(tokens)
        slot = self.slots.known.get(found["$name"][0]) if found is not None else None
        if slot is not None:
            try:
                async with asyncio.timeout(self.backend.seconds):
                    await slot.is_free.wait()
            except TimeoutError:
                pass

    async def copy(self, start: Start) -> bool:
        """Serves the stream with which a subscriber that has copied a table catches up."""
        slot = self.slots.copied(start)
        self.story = f"{slot.name}, a copy, from {position_text(start.position)}"
        await self.client.send(frames.copy_both())
        stream = Stream(self.client, None, self.backend.patience, self.backend.seconds)
        return await self.finish(await stream.repeat(slot.recording, start.position))

    async def stream(self, start: Start) -> bool:
        """Serves the stream of a slot of the catalog."""
        slot = self.slots.slot(start.slot)
        if not slot.is_free.is_set():
            raise Refused("55006", f'replication slot "{slot.name}" is active')
        slot.is_free.clear()
        stream = Stream(self.client, slot, self.backend.patience, self.backend.seconds)
        try:
            if slot.begin_of(start) < slot.before:
                if not slot.recording.covers(slot.begin_of(start)):
                    words = f'the stream of replication slot "{slot.name}" is not recorded from there'
                    raise Refused("55000", words, ANEW)
                return await self.resume(start, slot, stream)
            return await self.relay(start, slot, stream)
        finally:
            if stream.position:
                self.story += f" to {position_text(stream.position)}"
            slot.is_free.set()

    async def relay(self, start: Start, slot: Slot, stream: Stream) -> bool:
        """Starts a stream on a new connection to the publisher, and relays it."""
        begin = slot.begin_of(start)
        if slot.recording.reach and not slot.recording.fits(begin):
            slot.recording.end(f"the slot continues from {position_text(begin)}")
            slot.recording = Recording(self.slots.spool)
        asked = frames.status(0, wants_reply=True) if slot.recording.reach == 0 else b""
        publisher = await self.connected()
        try:
            query = frames.frame(QUERY, frames.text(start.at(begin).query()))
            kind, body = await self.answer_of(publisher, query + asked)
            if kind != COPY_BOTH:
                await self.client.send(frames.frame(kind, body))
                return True
            told: list[Frame] = []
            if slot.is_promised and asked:
                told = await self.first_told(publisher, slot, max(begin, BEGIN_OF_LOG))
            slot.publications = start.publications
            self.slots.keep(slot)
            self.story = f"{slot.name} from {position_text(begin)}"
            # A client that does not know the confirmed position has to be told first: it may have tables that catch up
            # to that position.
            stream.position = begin if begin > start.position else 0
            first = frames.keepalive(begin) if stream.position else b""
            await self.client.send(frames.frame(kind, body) + first)
            return await self.finish(await stream.relay(publisher, slot.recording, told))
        finally:
            publisher.close()

    async def resume(self, start: Start, slot: Slot, stream: Stream) -> bool:
        """Starts a slot that was dropped, from its recording."""
        begin = slot.begin_of(start)
        opened: list[Peer] = []

        async def connect(position: int) -> Peer:
            """A connection to the publisher that streams from a position on."""
            opened.append(await self.connected())
            query = frames.frame(QUERY, frames.text(start.at(position).query()))
            kind, body = await self.answer_of(opened[0], query)
            if kind != COPY_BOTH:
                await self.client.send(frames.frame(kind, body))
                raise Lost(opened[0], "refused to continue the stream")
            return opened[0]

        slot.publications = start.publications
        self.story = f"{slot.name}, which was dropped, from {position_text(begin)}"
        await self.client.send(frames.copy_both())
        try:
            return await self.finish(await stream.resume(slot.recording, begin, connect))
        finally:
            for publisher in opened:
                publisher.close()

    async def finish(self, is_done: bool) -> bool:
        """Completes the command of a finished stream with both answers that a server gives: a subscriber that ends a
        stream waits for the second one."""
        if is_done:
            await self.client.send(frames.complete("COPY 0") + frames.complete("START_REPLICATION"))
        return is_done

    async def connected(self) -> Peer:
        """A connection to the publisher."""
        try:
            return await peer_at(self.backend.port, "pgshard serve", self.backend.seconds)
        except (OSError, TimeoutError) as fault:
            why = getattr(fault, "strerror", None) or f"no answer within {self.backend.seconds:g} seconds"
            raise Refused("08001", f"no pgshard serve or publish is at port {self.backend.port}: {why}") from fault

    async def answer_of(self, publisher: Peer, query: bytes) -> Frame:
        """Returns the publisher's answer, unless it takes too long, or the client leaves first."""
        await publisher.send(query)
        answer = asyncio.create_task(publisher.frame())
        gone = asyncio.create_task(self.client.ended.wait())
        try:
            await asyncio.wait([answer, gone], timeout=self.backend.seconds, return_when=asyncio.FIRST_COMPLETED)
            if answer.done():
                return answer.result()
            if gone.done():
                raise Lost(self.client, "closed the connection")
            raise Lost(publisher, f"gave no answer within {self.backend.seconds:g} seconds")
        finally:
            answer.cancel()
            gone.cancel()
            await asyncio.gather(answer, gone, return_exceptions=True)

    async def first_told(self, publisher: Peer, slot: Slot, begin: int) -> list[Frame]:
        """Returns the first frames of a stream that has to start at the requested position. The first one, a keepalive,
        gives the position at which the stream starts; a later start is refused."""
        try:
            async with asyncio.timeout(self.backend.seconds):
                told = await publisher.frames()
        except TimeoutError:
            told = []
        why = "pgshard serve does not report where it starts"
        if told and told[0][0] == COPY_DATA and told[0][1][:1] == KEEPALIVE:
            position = number(told[0][1][KEPT_POSITION])
            if position <= begin:
                slot.is_promised = position > BEGIN_OF_LOG
                return told
            why = f"it was confirmed up to {position_text(position)} before"
        raise Refused(
            "55000", f'replication slot "{slot.name}" does not start from the beginning: {why}',
            f"Use create_slot = false and copy_data = false to continue from there. {ANEW}")
