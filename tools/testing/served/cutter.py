"""A relay that cuts a connection after some bytes."""

import contextlib
import socket
import threading
from collections.abc import Iterator


class Cutter:
    """Relays to a port, and cuts the first connection that starts a slot, after it has relayed this many bytes to the
    client."""

    def __init__(self, listener: socket.socket, backend: int, slot: str, after: int) -> None:
        self.listener = listener
        self.backend = backend
        self.slot = f'SLOT "{slot}"'.encode()
        self.after = after
        # The first frames of the slot's connections.
        self.starts: list[bytes] = []
        self.port = listener.getsockname()[1]
        threading.Thread(target=self.accept, daemon=True).start()

    def accept(self) -> None:
        with contextlib.suppress(OSError):
            while True:
                client, _ = self.listener.accept()
                threading.Thread(target=self.relay, args=(client,), daemon=True).start()

    def relay(self, client: socket.socket) -> None:
        with contextlib.suppress(OSError), client:
            with socket.create_connection(("127.0.0.1", self.backend)) as publisher:
                self.relay_to(publisher, client)

    def relay_to(self, publisher: socket.socket, client: socket.socket) -> None:
        start = client.recv(1 << 16)
        publisher.sendall(start)
        left = None
        if self.slot in start:
            self.starts.append(start)
            left = self.after if len(self.starts) == 1 else None
        up = threading.Thread(target=pump, args=(client, publisher, None), daemon=True)
        up.start()
        pump(publisher, client, left)
        up.join()


def pump(source: socket.socket, sink: socket.socket, left: int | None) -> None:
    """Relays one way, and then closes both connections."""
    with contextlib.suppress(OSError):
        while left is None or left > 0:
            piece = source.recv(1 << 16 if left is None else min(left, 1 << 16))
            if not piece:
                break
            sink.sendall(piece)
            left = None if left is None else left - len(piece)
    for end in source, sink:
        with contextlib.suppress(OSError):
            end.shutdown(socket.SHUT_RDWR)


@contextlib.contextmanager
def cutting(backend: int, slot: str, after: int) -> Iterator[Cutter]:
    with socket.create_server(("127.0.0.1", 0)) as listener:
        cutter = Cutter(listener, backend, slot, after)
        try:
            yield cutter
        finally:
            listener.shutdown(socket.SHUT_RDWR)
