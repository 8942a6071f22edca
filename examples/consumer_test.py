#!/usr/bin/env python3
"""Tests a consumer of a row-filtered stream with psycopg2: it sees a row arrive that is committed, its connection is cut,
and it loses nothing of what is committed meanwhile.

    examples/consumer_test.py

It starts pgshard publish with examples/shop.sql, and pgshard front before it: those of the clone that it is in, or
otherwise those on the path. The environment variable PGSHARD names another program to run as publish.
"""

import contextlib
import os
import pathlib
import select
import shutil
import socket
import struct
import subprocess
import sys
import time

import psycopg2
from psycopg2.extras import LogicalReplicationConnection

EXAMPLES = pathlib.Path(__file__).resolve().parent
OF_CLONE = EXAMPLES.parent / "pgshard"
SCRIPT = str(OF_CLONE) if OF_CLONE.exists() else shutil.which("pgshard") or os.environ.get("PGSHARD") or "pgshard"
PGSHARD = os.environ.get("PGSHARD") or SCRIPT

# What is committed: an order for london, which moves to tokyo, and another order for london.
COMMITS = [
    "COMMIT INSERT orders (1, 20, 500);",
    "COMMIT UPDATE orders (1) (1, 250, 500);",
    "COMMIT INSERT orders (4, 30, 1200);",
]
# What london is to get of it: the end of each transaction, and its changes.
EXPECTED = [
    (0x80, [("insert", ("1", "20", "500"))]),
    (0xC0, [("delete", ("1", "20", "500"))]),
    (0x100, [("insert", ("4", "30", "1200"))]),
]
# How long anything may take, in seconds.
PATIENCE = 60

Row = tuple[str | None, ...]
Transaction = tuple[int, list[tuple[str, Row]]]


class Publisher:
    """pgshard publish with a front before it, and the port of the front."""

    def __init__(self, running: contextlib.ExitStack) -> None:
        catalog = EXAMPLES / "shop.sql"
        made = subprocess.run([PGSHARD, "make"], stdin=catalog.open(), stdout=subprocess.PIPE, check=True, text=True)
        self.program = started(running, [PGSHARD, "publish", "--port", "0"])
        self.say(f"{catalog.read_text()}%%\n{made.stdout}%%\n")
        front = started(running, [
            SCRIPT, "front", "--port", "0", "--backend", port_of(self.program), "--catalog", str(catalog)])
        self.port = int(port_of(front))

    def say(self, text: str) -> None:
        self.program.stdin.write(text)
        self.program.stdin.flush()

    def commit(self, line: str) -> None:
        """Makes a commit, and waits for the answer."""
        self.say(f"{line}\n")
        answer = self.program.stdout.readline()
        if not answer.startswith("commit "):
            raise AssertionError(f"publish answers {line} with {answer}")


def started(running: contextlib.ExitStack, words: list[str]) -> subprocess.Popen[str]:
    """Starts a program, which is stopped at the end."""
    program = running.enter_context(
        subprocess.Popen(words, stdin=subprocess.PIPE, stdout=subprocess.PIPE, text=True))
    running.callback(program.kill)
    return program


def port_of(program: subprocess.Popen[str]) -> str:
    """Waits for a program's line `listening P`."""
    return program.stdout.readline().split()[1]


class Consumer:
    """What is under test here: it keeps transactions, and confirms what it has kept."""

    def __init__(self, port: int) -> None:
        self.port = port
        self.kept: list[Transaction] = []
        self.changes: list[tuple[str, Row]] = []
        self.connect()

    def connect(self) -> None:
        """Starts the stream after the last transaction that is kept. After a cut the slot is in use for a moment."""
        until = time.monotonic() + PATIENCE
        while True:
            self.connection = psycopg2.connect(
                host="127.0.0.1", port=self.port, user="postgres", dbname="shop",
                connection_factory=LogicalReplicationConnection)
            self.cursor = self.connection.cursor()
            try:
                self.cursor.start_replication(
                    slot_name="london", start_lsn=self.kept[-1][0] if self.kept else 0, decode=False,
                    options={"proto_version": "1", "publication_names": "europe"})
                return
            except psycopg2.errors.ObjectInUse:
                self.connection.close()
                if time.monotonic() > until:
                    raise
                time.sleep(0.1)

    def read(self) -> str:
        """Takes one message, and answers its letter. What a transaction begins, its Commit completes."""
        message = self.cursor.read_message()
        while message is None:
            if not select.select([self.cursor], [], [], PATIENCE)[0]:
                raise TimeoutError("no message")
            message = self.cursor.read_message()
        letter, body = message.payload[:1].decode(), message.payload[1:]
        match letter:
            case "B":
                self.changes = []
            case "I":
                self.changes.append(("insert", row_of(body[5:])))
            case "D":
                self.changes.append(("delete", row_of(body[5:])))
            case "C":
                end = struct.unpack("!Q", body[9:17])[0]
                self.kept.append((end, self.changes))
                self.cursor.send_feedback(flush_lsn=end, force=True)
        return letter

    def cut(self) -> None:
        """Loses the connection as a network does it, without a word, and all that was read of a transaction."""
        with socket.socket(fileno=os.dup(self.connection.fileno())) as same:
            same.shutdown(socket.SHUT_RDWR)
        self.connection.close()


def row_of(tuple_data: bytes) -> Row:
    """The values of a TupleData, as texts."""
    values: list[str | None] = []
    at = 2
    for _ in range(int.from_bytes(tuple_data[:2], "big")):
        if tuple_data[at:at + 1] == b"n":
            values.append(None)
            at += 1
        else:
            end = at + 5 + int.from_bytes(tuple_data[at + 1:at + 5], "big")
            values.append(tuple_data[at + 5:end].decode())
            at = end
    return tuple(values)


def main() -> int:
    """The test."""
    with contextlib.ExitStack() as running:
        publisher = Publisher(running)
        consumer = Consumer(publisher.port)
        publisher.commit(COMMITS[0])
        while consumer.read() != "C":
            pass
        publisher.commit(COMMITS[1])
        while consumer.read() != "D":
            pass
        consumer.cut()
        print(f"cut after {len(consumer.kept)} transaction, in the second")
        publisher.commit(COMMITS[2])
        consumer.connect()
        while len(consumer.kept) < len(EXPECTED):
            consumer.read()
        consumer.connection.close()
    for end, changes in consumer.kept:
        print(f"{end >> 32:X}/{end & 0xFFFFFFFF:X} {changes}")
    print("nothing is lost" if consumer.kept == EXPECTED else f"expected: {EXPECTED}")
    return 0 if consumer.kept == EXPECTED else 1


if __name__ == "__main__":
    sys.exit(main())
