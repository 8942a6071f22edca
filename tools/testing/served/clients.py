"""A client of `pgshard serve` that works with single bytes if necessary."""

import contextlib
import itertools
import socket
import time
from collections.abc import Iterator

from . import messages
from .program import SECONDS
from .publisher import Subscriber

# The size of a small receive buffer, in bytes.
LITTLE = 4096

# What is read if nothing more comes and the connection does not end.
NO_END = b" and no end"


class Connection:
    """One end of a connection. If the other end closes it, less is read than was asked for."""

    def __init__(self, opened: socket.socket) -> None:
        opened.settimeout(SECONDS)
        opened.setsockopt(socket.IPPROTO_TCP, socket.TCP_NODELAY, 1)
        self.opened = opened

    def send(self, given: bytes) -> None:
        self.opened.sendall(given)

    def send_slowly(self, given: bytes) -> None:
        """Sends each byte separately."""
        for byte in given:
            self.send(bytes([byte]))
            time.sleep(0.001)

    def start(self, subscriber: Subscriber, position: int = 0) -> None:
        self.send(messages.start(subscriber.slot, position, list(subscriber.publications)))

    def receive(self, count: int) -> bytes:
        """Reads this many bytes, and returns them without clocks and times."""
        return messages.without_times(self.receive_as_is(count))

    def receive_as_is(self, count: int) -> bytes:
        received = bytearray()
        try:
            while len(received) < count:
                piece = self.opened.recv(min(count - len(received), 1 << 16))
                if not piece:
                    break
                received += piece
        except TimeoutError:
            received += NO_END
        except OSError:
            pass
        return bytes(received)

    def receive_until(self, end: bytes) -> bytes:
        """Reads up to and including these bytes."""
        received = b""
        while not received.endswith(end):
            byte = self.receive(1)
            if len(byte) != 1:
                break
            received += byte
        return received

    def receive_all(self) -> bytes:
        """Reads up to the end of the connection."""
        return self.receive(1 << 30)

    def finish(self) -> bytes:
        """Ends the stream, and reads what still comes."""
        self.send(messages.COPY_DONE)
        return self.receive_all()


@contextlib.contextmanager
def client(port: int, room: int | None = None) -> Iterator[Connection]:
    """Connects a client, whose receive buffer may be small."""
    with socket.socket() as opened:
        if room is not None:
            opened.setsockopt(socket.SOL_SOCKET, socket.SO_RCVBUF, room)
        opened.settimeout(SECONDS)
        opened.connect(("127.0.0.1", port))
        yield Connection(opened)


@contextlib.contextmanager
def back_again(
        port: int, subscriber: Subscriber, position: int, answers: tuple[bytes, ...] = (b"E",),
) -> Iterator[Connection]:
    """Connects a client that starts as one does whose connection was lost. If it is refused, it tries again, since its
    slot may be in use for a moment, or its position may be ahead of a log that is still growing. A refusal is an answer
    that begins with one of the given bytes."""
    until = time.monotonic() + SECONDS
    for tries in itertools.count(1):
        with client(port) as made:
            made.start(subscriber, position)
            if first_byte(made) not in answers or time.monotonic() > until:
                yield made
                return
        time.sleep(0.02 * tries)


def first_byte(made: Connection) -> bytes:
    """Returns the first byte, without consuming it; an empty result means that the connection has ended."""
    try:
        return made.opened.recv(1, socket.MSG_PEEK)
    except ConnectionError:
        return b""
