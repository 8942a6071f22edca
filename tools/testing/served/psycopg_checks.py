"""Tests psycopg2 through tools/front: what it reads, and that the publisher remembers what it confirms."""

import pathlib
import subprocess
import sys
import time

from pythons import python_with
from server import environment
from tally import Tally

from . import messages
from .program import SECONDS, fronting, serving, use_up
from .shop import SHOP, TOKYO

CLIENT = pathlib.Path(__file__).resolve().parent / "psycopg_client.py"

# The error of a client that comes back before its slot is free. It then tries again.
IN_USE = "55006\n"
CONNECTIONS = 100

# After this many transactions of a slot, the first client confirms them and disconnects.
READ_FIRST = 4

Transactions = list[list[tuple[int, bytes]]]


def check_psycopg(tally: Tally) -> None:
    """The first client reads some transactions and confirms them; the second one asks for all and gets only the
    others."""
    python = python_with("psycopg2") or sys.executable
    publisher = SHOP.publisher()
    first = publisher.transactions(TOKYO)[:READ_FIRST]
    confirmed = first[-1][-1][0] + 64
    others = publisher.transactions(TOKYO, confirmed)
    with (
        serving(SHOP.input(), "--connections", str(CONNECTIONS)) as (program, port),
        fronting(port) as (_, front_port),
    ):
        tally.check("psycopg2 reads and confirms", read(python, front_port, first, confirmed), lines_of(first))
        tally.check("psycopg2 reads what it did not confirm", read(python, front_port, others, 0), lines_of(others))
        tally.check("psycopg2 reads the same once more", read(python, front_port, others, 0), lines_of(others))
        use_up(program, port)
        expected = 0, [f"closed {len(SHOP.commits)} {CONNECTIONS}\n"]
        tally.check("the end of serve after psycopg2", program.end(), expected)


def read(python: str, port: int, transactions: Transactions, confirmed: int) -> str:
    """Returns what a client prints that reads as many messages as these have."""
    words = [port, TOKYO.slot, ",".join(TOKYO.publications), sum(map(len, transactions)), confirmed]
    until = time.monotonic() + SECONDS
    while True:
        answer = subprocess.run(
            [python, CLIENT, *map(str, words)], stdin=subprocess.DEVNULL, stdout=subprocess.PIPE,
            stderr=subprocess.STDOUT, encoding="utf-8", timeout=SECONDS, env=environment())
        if answer.stdout != IN_USE or time.monotonic() > until:
            return "".join(map(without_time, answer.stdout.splitlines(keepends=True)))
        time.sleep(0.1)


def without_time(line: str) -> str:
    """Returns a line without the time of its message, if it has one."""
    position, _, message = line.removesuffix("\n").partition(" ")
    if not position.isdigit():
        return line
    return f"{position} {messages.without_time(bytes.fromhex(message)).hex()}\n"


def lines_of(transactions: Transactions) -> str:
    """Returns what the client prints for these transactions. A Commit comes at the end of its transaction."""
    return "".join(
        f"{position + 64 if message[:1] == b'C' else position} {message.hex()}\n"
        for transaction in transactions for position, message in transaction)
