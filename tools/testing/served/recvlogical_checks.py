"""Tests pg_recvlogical, which writes a slot's messages to a file, through tools/front."""

import pathlib
import subprocess
import tempfile

from server import PROGRAMS, environment
from tally import Tally

from . import messages
from .program import SECONDS, fronting, serving, use_up
from .publisher import Subscriber, end_of
from .shop import LONDON, SHOP, TOKYO

# The slots and positions that are requested from one publisher, in turn. A slot cannot be requested twice, since
# everything that was read is confirmed.
ASKED = [
    [(TOKYO, 0), (LONDON, end_of(4))],
    [(LONDON, 0)],
]


def check_recvlogical(tally: Tally) -> None:
    for starts in ASKED:
        with serving(SHOP.input()) as (program, port), fronting(port) as (_, front_port):
            for subscriber, position in starts:
                check_start(tally, front_port, subscriber, position)
            use_up(program, port)
            ended = f"closed {len(SHOP.commits)} 2\n"
            tally.check("the end of serve after pg_recvlogical", program.end(), (0, [ended]))


def check_start(tally: Tally, port: int, subscriber: Subscriber, position: int) -> None:
    """Checks what pg_recvlogical writes, that it ends at the end of the log, and its message about its slot."""
    name = f"pg_recvlogical of {subscriber.slot} from {messages.written(position)}"
    with tempfile.TemporaryDirectory() as folder:
        file = pathlib.Path(folder) / "messages"
        words = start_words(subscriber, position, file)
        tally.check(f"{name}: a slot is made", run(port, subscriber, "--create-slot", "-P", "pgoutput"), (0, ""))
        tally.check(f"{name}: its end", run(port, subscriber, *words), (0, ""))
        found = file.read_bytes() if file.exists() else b""
        expected = written_messages(subscriber, position)
        tally.check(f"{name}: its messages", lines_of(cut(found, expected)), lines_of(expected))
        dropped = run(port, subscriber, "--drop-slot")
        expected = (0, "") if position == 0 else (1, not_dropped(subscriber, position))
        tally.check(f"{name}: a slot is dropped", dropped, expected)


def not_dropped(subscriber: Subscriber, position: int) -> str:
    """Returns the message for a slot that would not start afresh, since nobody has read its stream from the beginning
    of the log."""
    return (
        f'pg_recvlogical: error: could not send replication command "DROP_REPLICATION_SLOT "{subscriber.slot}"": '
        f'ERROR:  replication slot "{subscriber.slot}" cannot be dropped, since it would not start from the beginning: '
        f"its stream is known only from {messages.written(position)} on\n"
        "HINT:  To drop a subscription without its slot, use ALTER SUBSCRIPTION .. SET (slot_name = NONE) first. "
        "Restart pgshard serve and pgshard front together to start all slots from the beginning.\n")


def start_words(subscriber: Subscriber, position: int, file: pathlib.Path) -> list[str]:
    return [
        "--start", "--no-loop", "-o", "proto_version=1", "-o", f"publication_names={','.join(subscriber.publications)}",
        "-I", messages.written(position), "--endpos", messages.written(SHOP.publisher().end()), "-f", str(file)]


def run(port: int, subscriber: Subscriber, *words: str) -> tuple[int | None, str]:
    """Returns the status and the messages of pg_recvlogical."""
    command = [PROGRAMS / "pg_recvlogical", "-h", "127.0.0.1", "-p", str(port), "-U", "postgres", "-d", "shop"]
    try:
        answer = subprocess.run(
            [*command, "--slot", subscriber.slot, *words], stdin=subprocess.DEVNULL, stdout=subprocess.PIPE,
            stderr=subprocess.STDOUT, encoding="utf-8", timeout=SECONDS, env=environment())
    except subprocess.TimeoutExpired:
        return None, f"no end within {SECONDS} seconds\n"
    return answer.returncode, answer.stdout


def written_messages(subscriber: Subscriber, position: int) -> list[bytes]:
    """Returns the messages, each followed by the newline that pg_recvlogical writes."""
    transactions = SHOP.publisher().transactions(subscriber, position)
    return [message + b"\n" for transaction in transactions for _, message in transaction]


def cut(found: bytes, expected: list[bytes]) -> list[bytes]:
    """Cuts the output into pieces as long as the expected ones, without times, followed by what is left."""
    pieces = []
    for message in expected:
        pieces.append(messages.without_time(found[:len(message)]))
        found = found[len(message):]
    return [*pieces, found] if found else pieces


def lines_of(pieces: list[bytes]) -> str:
    return "".join(f"{piece.hex()}\n" for piece in pieces)
