"""Tests judge with servers of later versions: a relay tells clients a version that differs from the server's."""

import contextlib
import pathlib
import socket
import struct
import tempfile
import threading
from collections.abc import Callable, Iterator

from programs import judge
from server import Server
from tally import Tally

DATABASE = "versions"
SETUP = """
    CREATE TABLE orders (id integer PRIMARY KEY, twice integer GENERATED ALWAYS AS (id % 1000 * 2) STORED);
    CREATE PUBLICATION low FOR TABLE orders WHERE (id < 5);
    CREATE PUBLICATION high FOR TABLE orders WHERE (id >= 5);
"""
EACH = "each publication counts as a subscriber of its own; -v subscriptions='..' names others"
SOCKET = ".s.PGSQL.5432"


def check_versions(tally: Tally, server: Server) -> None:
    """Checks that versions 15 to 18 are judged, and that judge mentions a version later than 15."""
    server.create(DATABASE, SETUP)
    for version, says in {
            "15.99": [], "18.99": ["the server has version 18.99: judged by the rules of 15"],
            "16.0": ["the server has version 16.0: judged by the rules of 15"],
            "17.2 (Debian 17.2-1)": ["the server has version 17.2: judged by the rules of 15"]}.items():
        tally.check(f"version {version}", told(server, version), [
            "public.orders: sound", EACH, *says, "tables: 1 judged, 1 sound", "status 0"])
    for version, written in ("14.20", "14.20"), ("19beta1", "19.0"):
        tally.check(f"version {version}", told(server, version), [
            f"judge: the server has version {written}, and judge judges versions 15 to 18", "status 4"])


def told(server: Server, version: str) -> list[str]:
    """Returns judge's lines if clients are told this version."""
    with telling(version, pathlib.Path(server.folder)) as folder:
        return judge("-h", folder, "-U", "postgres", "-d", DATABASE).splitlines()


@contextlib.contextmanager
def telling(version: str, backend: pathlib.Path) -> Iterator[str]:
    """Provides a folder with a socket of the server, on which clients are told this version."""
    with tempfile.TemporaryDirectory(dir="/tmp") as folder, socket.socket(socket.AF_UNIX) as listener:
        listener.bind(f"{folder}/{SOCKET}")
        listener.listen()
        threading.Thread(target=accept, args=(listener, version, backend), daemon=True).start()
        yield folder
        listener.shutdown(socket.SHUT_RDWR)


def accept(listener: socket.socket, version: str, backend: pathlib.Path) -> None:
    """Relays each connection."""
    with contextlib.suppress(OSError):
        while True:
            client, _ = listener.accept()
            threading.Thread(target=relay, args=(client, version, backend), daemon=True).start()


def relay(client: socket.socket, version: str, backend: pathlib.Path) -> None:
    """Relays both ways. Of the server's messages up to the first ReadyForQuery, one is changed."""
    with client, socket.socket(socket.AF_UNIX) as server, contextlib.suppress(OSError):
        server.connect(f"{backend}/{SOCKET}")
        threading.Thread(target=pump, args=(client, server), daemon=True).start()
        with server.makefile("rb") as messages:
            begin(messages.read, client, version)
            while piece := messages.read1():
                client.sendall(piece)


def begin(read: Callable[[int], bytes], client: socket.socket, version: str) -> None:
    """Relays what comes before the first query."""
    letter = b""
    while letter != b"Z":
        letter = read(1)
        if not letter:
            return
        body = read(struct.unpack("!i", read(4))[0] - 4)
        if letter == b"S" and body.startswith(b"server_version\0"):
            body = b"server_version\0" + version.encode() + b"\0"
        client.sendall(letter + struct.pack("!i", len(body) + 4) + body)


def pump(source: socket.socket, sink: socket.socket) -> None:
    """Relays one way, and then closes both connections."""
    with contextlib.suppress(OSError):
        while piece := source.recv(1 << 16):
            sink.sendall(piece)
    for end in source, sink:
        with contextlib.suppress(OSError):
            end.shutdown(socket.SHUT_RDWR)
