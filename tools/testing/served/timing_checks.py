"""Tests what `pgshard publish` does as time passes, and its log of connections, which consists of JSON objects."""

import contextlib
import json
import socket
import time

from programs import PGSHARD, pgshard
from tally import Tally

from . import messages
from .clients import LITTLE, Connection, back_again, client
from .program import SECONDS, publishing, started
from .publish_checks import commit_line, head
from .publisher import Insert, Publisher
from .shop import LONDON, SHOP, TOKYO

# For how many seconds a client may send nothing, and how long a client that does is kept at least.
SILENCE = 4
STAY = 7
PAUSE = 0.2

# For how many seconds a client may send its start, and the pause between the bytes of one that takes longer.
START = 3
DRIP = 0.1

# For how many seconds a client may leave everything unread, how much later its end may come on a busy machine, and the
# commits for a client that reads nothing: more than sockets hold.
STALL = 2
DELAY = 60
LONG_ROWS, LONG_TEXT = 200, 60_000

# How many keepalives are expected, one second apart. The first may have been due before the stream began.
KEEPALIVES = 4
LEAST = KEEPALIVES - 2

WRONG_WORDS = [
    ("--keepalive", "0"), ("--keepalive", "86401"), ("--keepalive", "x"), ("--timeout", "0"), ("--timeout", "86401"),
    ("--timeout",), ("--timeout", "5", "--timeout", "5"), ("--log", "xml"), ("--log", "JSON"), ("--log", ""), ("--log",),
]

TAKEN = "port {} of 127.0.0.1 cannot be used: Address already in use (os error 98)"

TOOK_NOTHING = "the connection was lost, or the client read nothing for too long"

# A slot name that needs escapes in JSON, and its form in SQL.
STRANGE = 'a"b\\c'
STRANGE_QUOTED = '"a""b\\c"'


def check_timing(tally: Tally) -> None:
    """Tests all of this."""
    text = head()
    check_words(tally, text)
    check_keepalives(tally, text)
    check_silence(tally, text)
    check_start(tally, text)
    check_stalled(tally, text)
    check_objects(tally, text)
    check_strange_name(tally, text)
    check_fault(tally, text)


def check_words(tally: Tally, text: str) -> None:
    """Tests usage errors, and that the help lists the options."""
    for wrong in WRONG_WORDS:
        status, output = pgshard("publish", "--port", "0", *wrong, text=text, seconds=SECONDS)
        tally.check(f"publish {' '.join(wrong)}", (status, output.startswith("command line\n")), (2, True))
    _, shown = pgshard("publish", "--help", text="", seconds=SECONDS)
    for option in "--keepalive", "--timeout", "--log":
        tally.check(f"the help of publish has {option}", option in shown, True)


def next_frame(made: Connection) -> bytes:
    """Returns the next frame, without its clock."""
    first = made.receive_as_is(5)
    return messages.without_times(first + made.receive_as_is(int.from_bytes(first[1:5], "big") - 4))


def check_keepalives(tally: Tally, text: str) -> None:
    """Checks that each client gets keepalives one second apart, which give the log position up to which it has been
    sent changes."""
    with publishing(text, "--keepalive", "1") as (program, port), client(port) as made, client(port) as other:
        begin = time.monotonic()
        for connection, subscriber in (made, LONDON), (other, TOKYO):
            connection.start(subscriber)
            connection.receive(len(messages.COPY_BOTH_RESPONSE))
        found = [next_frame(made) for _ in range(KEEPALIVES)]
        tally.check("a keepalive before the first commit", found[0], messages.keepalive(64))
        tally.check("further keepalives", found[1:], [messages.keepalive(64)] * (KEEPALIVES - 1))
        tally.check("how soon they come", LEAST < time.monotonic() - begin < SECONDS, True)
        publisher = Publisher(SHOP.tables)
        publisher.commit(SHOP.commits[0])
        program.ask(commit_line(SHOP.commits[0]))
        for name, connection, subscriber in ("london", made, LONDON), ("tokyo", other, TOKYO):
            frames = frames_up_to(connection, messages.keepalive(publisher.end()))
            tally.check(f"a keepalive of {name} after a commit", frames[-1], messages.keepalive(publisher.end()))
            told = [it for it in frames if it[5:6] == b"w"]
            expected = publisher.stream(subscriber).removeprefix(messages.COPY_BOTH_RESPONSE)
            tally.check(f"what {name} gets beside keepalives", b"".join(told), expected)
        tally.check("the end after keepalives", program.finish()[0], 0)


def frames_up_to(made: Connection, last: bytes) -> list[bytes]:
    """Returns the next frames up to and including this one, or as many as come in time."""
    until = time.monotonic() + SECONDS
    frames = [next_frame(made)]
    while frames[-1] and frames[-1] != last and time.monotonic() < until:
        frames.append(next_frame(made))
    return frames


def check_silence(tally: Tally, text: str) -> None:
    """Checks that a client that sends nothing for a while is given up, and one that sends something is not."""
    words = "--timeout", str(SILENCE), "--keepalive", "86400"
    with publishing(text, *words) as (program, port), client(port) as silent, client(port) as other:
        begin, given_up = time.monotonic(), 0.0
        silent.start(LONDON)
        other.start(TOKYO)
        other.receive(len(messages.COPY_BOTH_RESPONSE))
        while (stayed := time.monotonic() - begin) < STAY or not given_up and stayed < SECONDS:
            other.send(messages.status(0))
            time.sleep(PAUSE)
            if program.log and not given_up:
                given_up = time.monotonic() - begin
        tally.check("what a silent client gets", silent.receive_all(), messages.COPY_BOTH_RESPONSE)
        tally.check("how soon it is given up", SILENCE - 0.1 < given_up < SECONDS, True)
        other.send(messages.status(0, wants_reply=True))
        tally.check("the reply to one that is not silent", next_frame(other), messages.keepalive(64))
        said = "london: sent from 0/0 to 0/0: the connection was lost, or the client sent nothing for too long\n"
        tally.check("what is said of the silent client", program.log, [said])
        other.finish()
        tally.check("the end after a silent client", program.finish(), (0, ["closed 0 2\n"]))


def check_start(tally: Tally, text: str) -> None:
    """Checks that a start may come byte by byte, and that a client whose start takes too long is given up."""
    with publishing(text, "--start-timeout", str(START)) as (program, port), client(port) as made, client(port) as slow:
        begin, given_up = time.monotonic(), 0.0
        made.send_slowly(messages.start("london", 0, ["low"]))
        response = messages.COPY_BOTH_RESPONSE
        tally.check("a start that comes byte by byte", made.receive(len(response)), response)
        with contextlib.suppress(OSError):
            for byte in messages.start("tokyo", 0, ["high"]):
                slow.send(bytes([byte]))
                time.sleep(DRIP)
                if program.log:
                    given_up = time.monotonic() - begin
                    break
        tally.check("how soon a start that takes too long is given up", START - 0.1 < given_up < SECONDS, True)
        tally.check("what a client gets whose start takes too long", slow.receive_all(), b"")
        made.finish()
        tally.check("the end after a start that takes too long", program.finish(), (0, ["closed 0 2\n"]))


def check_stalled(tally: Tally, text: str) -> None:
    """Checks that a client that reads nothing is given up soon, however long it may be silent, and that its slot then
    loses nothing."""
    made = Publisher(SHOP.tables)
    words = "--write-timeout", str(STALL), "--timeout", "600", "--keepalive", "86400"
    with publishing(text, *words) as (program, port), client(port, LITTLE) as stalled:
        stalled.start(LONDON)
        begin = time.monotonic()
        for number in range(LONG_ROWS):
            commands = [Insert("orders", (number, 20, 500, "x" * LONG_TEXT, None))]
            made.commit(commands)
            program.ask(commit_line(commands))
        answered = time.monotonic()
        while not program.log and time.monotonic() < answered + SECONDS:
            time.sleep(0.02)
        given_up = begin + STALL - 0.1 < time.monotonic() < answered + STALL + DELAY
        tally.check("how soon a client that reads nothing is given up", given_up, True)
        said = [line.startswith("london: sent from 0/0 to 0/") and line.endswith(f": {TOOK_NOTHING}\n")
                for line in program.log]
        tally.check("what is said of a client that reads nothing", said, [True])
        expected = made.stream(LONDON)
        with back_again(port, LONDON, 0) as again:
            tally.check("the stream of its slot afterwards", again.receive(len(expected)) == expected, True)
        tally.check("the end after a client that read nothing", program.finish(), (0, [f"closed {LONG_ROWS} 2\n"]))


def address(opened: socket.socket) -> str:
    host, port = opened.getsockname()
    return f"{host}:{port}"


def timeless(lines: list[str], begin: float) -> list[dict[str, object]]:
    """Returns the objects of some lines. Each time is replaced by whether it is within the run, in milliseconds."""
    objects = [json.loads(line) for line in lines]
    for it in objects:
        it["time"] = begin - 1 <= it["time"] / 1000 <= time.time() + 1
    return objects


def check_objects(tally: Tally, text: str) -> None:
    """Tests a client that is sent a commit, and one that starts nothing."""
    begin = time.time()
    publisher = Publisher(SHOP.tables)
    publisher.commit(SHOP.commits[0])
    with publishing(text, "--log", "json") as (program, port):
        program.ask(commit_line(SHOP.commits[0]))
        with client(port) as made:
            first = address(made.opened)
            made.start(LONDON)
            made.receive(len(publisher.stream(LONDON)))
            made.finish()
        with client(port) as nothing:
            second = address(nothing.opened)
            nothing.send(messages.TERMINATE)
            nothing.receive_all()
        tally.check("the end with objects", program.finish(), (0, ["closed 1 2\n"]))
        lines = program.whole_log()
    closed = "the client closed the connection"
    expected = [
        {"event": "accepted", "client": first, "time": True},
        {"event": "ended", "client": first, "time": True, "subscription": "london", "from": "0/0", "to": "0/80",
         "reason": closed},
        {"event": "accepted", "client": second, "time": True},
        {"event": "ended", "client": second, "time": True, "subscription": None, "reason": closed},
    ]
    tally.check("the objects of two connections", timeless(lines, begin), expected)


def check_strange_name(tally: Tally, text: str) -> None:
    """Tests a name that needs escapes in JSON."""
    strange = text.replace("CREATE SUBSCRIPTION london", f"CREATE SUBSCRIPTION {STRANGE_QUOTED}")
    start = f"START_REPLICATION SLOT {STRANGE_QUOTED} LOGICAL 0/0 (proto_version '1', publication_names 'low')"
    with publishing(strange, "--log", "json") as (program, port):
        with client(port) as made:
            made.send(messages.query(start))
            response = messages.COPY_BOTH_RESPONSE
            tally.check("the start of a strange slot", made.receive(len(response)), response)
            made.finish()
        program.finish()
        found = [json.loads(line).get("subscription") for line in program.whole_log()]
    tally.check("a strange name in objects", found, [None, STRANGE])


def check_fault(tally: Tally, text: str) -> None:
    """Tests a port that is taken."""
    begin = time.time()
    with publishing(text) as (_, port), started([PGSHARD, "publish", "--port", str(port), "--log", "json"], text) as second:
        tally.check("publish with objects at a port that is taken", second.end(), (4, []))
        expected = [{"event": "fault", "fault": TAKEN.format(port), "time": True}]
        tally.check("what it says in an object", timeless(second.whole_log(), begin), expected)
