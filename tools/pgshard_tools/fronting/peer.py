"""One end of a connection: frames are read from it, and bytes are sent to it."""

import asyncio
import socket
import ssl
from collections.abc import Callable

from pgshard_tools.fronting import frames
from pgshard_tools.fronting.frames import Frame

# No client sends longer frames: even a start with the names of 64 publications is shorter.
LONGEST_FROM_CLIENT = 1 << 15
# The limit that PostgreSQL has for a startup packet.
LONGEST_STARTUP = 10_000
# No frame of pgshard serve is longer.
LONGEST_FROM_PUBLISHER = 1 << 24

# How many unread bytes may be buffered before reading pauses, unless somebody waits for them.
MOST_WAITING = 1 << 17

# After how many seconds of silence, and then how often, the system checks whether the other end still exists.
PROBES = {"TCP_KEEPIDLE": 60, "TCP_KEEPINTVL": 10, "TCP_KEEPCNT": 3}


class Lost(Exception):
    """A connection is lost, for this reason."""

    def __init__(self, peer: "Peer", words: str) -> None:
        super().__init__(f"{peer.name} {words}")
        self.peer = peer


class Peer(asyncio.Protocol):
    """A connection, which lasts until the other end closes it, sends something that is not a frame, or reads nothing
    for too long."""

    transport: asyncio.Transport

    def __init__(
            self, name: str, longest: int, patience: float, on_made: Callable[["Peer"], None] = lambda peer: None,
    ) -> None:
        self.name = name
        self.longest = longest
        # How many seconds the other end may accept no bytes.
        self.patience = patience
        self.on_made = on_made
        self.waiting = bytearray()
        self.ended = asyncio.Event()
        # Set when bytes have arrived, and while bytes may be sent.
        self.news = asyncio.Event()
        self.room = asyncio.Event()
        self.room.set()

    def connection_made(self, transport: asyncio.BaseTransport) -> None:
        """Takes over a new connection."""
        assert isinstance(transport, asyncio.Transport)
        self.transport = transport
        opened: socket.socket = transport.get_extra_info("socket")
        opened.setsockopt(socket.SOL_SOCKET, socket.SO_KEEPALIVE, 1)
        for option, value in PROBES.items():
            if hasattr(socket, option):
                opened.setsockopt(socket.IPPROTO_TCP, getattr(socket, option), value)
        self.on_made(self)

    def data_received(self, data: bytes) -> None:
        """Stores the bytes that have arrived."""
        self.waiting += data
        if len(self.waiting) >= MOST_WAITING:
            self.transport.pause_reading()
        self.news.set()

    def eof_received(self) -> None:
        """The other end will send nothing more, so the connection is closed."""
        self.end()

    def connection_lost(self, exc: Exception | None) -> None:
        """The connection is closed."""
        self.end()

    def end(self) -> None:
        """Wakes all that wait."""
        self.ended.set()
        self.news.set()
        self.room.set()

    def pause_writing(self) -> None:
        """Too many bytes are waiting to be sent."""
        self.room.clear()

    def resume_writing(self) -> None:
        """The waiting bytes have been sent."""
        self.room.set()

    def write(self, sent: bytes) -> None:
        """Sends bytes as soon as possible."""
        if not self.ended.is_set():
            self.transport.write(sent)

    async def send(self, sent: bytes) -> None:
        """Sends bytes, and waits while too many are on their way."""
        self.write(sent)
        try:
            async with asyncio.timeout(None if self.room.is_set() else self.patience):
                await self.room.wait()
        except TimeoutError:
            self.transport.abort()
            raise Lost(self, f"read nothing for {self.patience:g} seconds") from None
        if self.ended.is_set():
            raise Lost(self, "closed the connection")

    async def fill(self) -> None:
        """Waits for more bytes."""
        if self.ended.is_set():
            raise Lost(self, "closed the connection")
        self.news.clear()
        if not self.transport.is_closing():
            self.transport.resume_reading()
        await self.news.wait()

    async def take(self, count: int) -> bytes:
        """Returns exactly this many of the next bytes."""
        while len(self.waiting) < count:
            await self.fill()
        taken = bytes(self.waiting[:count])
        del self.waiting[:count]
        return taken

    async def startup_body(self) -> bytes:
        """Returns the body of a first packet, which has no type byte."""
        return await self.take(self.length_of(await self.take(4), LONGEST_STARTUP))

    async def frame(self) -> Frame:
        """The next frame's kind and body."""
        return (await self.frames(most=1))[0]

    async def frames(self, most: int | None = None) -> list[Frame]:
        """Complete frames, at least one and at most this many."""
        while not (found := self.whole_frames(most)):
            await self.fill()
        return found

    def whole_frames(self, most: int | None) -> list[Frame]:
        """Returns the complete frames among the bytes that have arrived. A frame with an invalid length is reported
        when it is the first."""
        found: list[Frame] = []
        at = 0
        while len(self.waiting) >= at + 5 and len(found) != most:
            if found and not self.is_valid(self.waiting[at + 1:at + 5], self.longest):
                break
            end = at + 5 + self.length_of(self.waiting[at + 1:at + 5], self.longest)
            if len(self.waiting) < end:
                break
            found.append((bytes(self.waiting[at:at + 1]), bytes(self.waiting[at + 5:end])))
            at = end
        del self.waiting[:at]
        return found

    @staticmethod
    def is_valid(number: bytes | bytearray, longest: int) -> bool:
        """Whether a frame may have this length."""
        return 4 <= int.from_bytes(number, "big", signed=True) <= longest + 4

    def length_of(self, number: bytes | bytearray, longest: int) -> int:
        """How many bytes follow a length."""
        if not self.is_valid(number, longest):
            self.write(frames.error("08P01", "invalid message length", severity="FATAL"))
            raise Lost(self, "sent a frame of an invalid length")
        return int.from_bytes(number, "big") - 4

    async def secure(self, context: ssl.SSLContext, seconds: float) -> None:
        """Continues with TLS, which the client has requested. Bytes that arrived together with the request would be
        mistaken for encrypted ones, so they end the connection."""
        if self.waiting:
            raise Lost(self, "sent bytes before the TLS handshake")
        self.transport.pause_reading()
        self.transport.write(b"S")
        try:
            secured = await asyncio.get_running_loop().start_tls(
                self.transport, self, context, server_side=True, ssl_handshake_timeout=seconds)
        except (OSError, ssl.SSLError) as fault:
            raise Lost(self, f"failed in the TLS handshake: {fault}") from fault
        if secured is None:
            raise Lost(self, "closed the connection")
        self.transport = secured

    def close(self) -> None:
        """Ends the connection when everything has been sent, or after some time."""
        if hasattr(self, "transport") and not self.transport.is_closing():
            self.transport.close()
            asyncio.get_running_loop().call_later(min(self.patience, 5), self.transport.abort)


async def peer_at(port: int, name: str, seconds: float) -> Peer:
    """A connection to a port of this machine."""
    loop = asyncio.get_running_loop()
    made = Peer(name, LONGEST_FROM_PUBLISHER, seconds)
    async with asyncio.timeout(seconds):
        await loop.create_connection(lambda: made, "127.0.0.1", port)
    return made
