"""Tests `pgshard publish --commands PORT`, which answers the lines of callers on a port of their own."""

import contextlib
import socket
import struct
import tempfile
import time
from collections.abc import Iterator

from programs import PGSHARD, pgshard
from tally import Tally

from .clients import LITTLE, client
from .program import SECONDS, Publication, free_port, publishing, started
from .publish_checks import ANSWERS, commit_line, head
from .publisher import Insert
from .shop import LONDON, SHOP

# In seconds: how long a caller that should not get an answer yet is watched, how long a caller may leave an answer
# unread, and the latest time after that by which it has been given up, on a busy machine.
WATCH = 0.5
STALL = 1
DELAY = 60

# The view that is sent to a caller that reads nothing: more than sockets hold.
LONG_ROWS, LONG_TEXT, VIEWS = 50, 60_000, 6

# The most commands of a commit, and the most bytes of a text and of an input. A line may be longer than an input.
COMMANDS, TEXT, INPUT = 1_000, 65_535, 16_777_216

# The number of callers that connect one after another.
CALLERS = 1_000

WRONG_WORDS = [
    ("--commands",), ("--commands", ""), ("--commands", "x"), ("--commands", "65536"), ("--commands", "-1"),
    ("--commands", "0", "--commands", "0"),
]


class Caller:
    """A client that sends lines, and reads answers."""

    def __init__(self, opened: socket.socket) -> None:
        self.opened = opened
        self.answers = opened.makefile("r", encoding="utf-8", newline="\n")

    def say(self, text: str) -> None:
        self.opened.sendall(text.encode())

    def ask(self, line: str) -> str:
        """Sends a line, and returns the first line of the answer."""
        self.say(f"{line}\n")
        return self.answers.readline()

    def hears_nothing(self) -> bool:
        """Returns whether no answer comes for a while."""
        self.opened.settimeout(WATCH)
        try:
            return self.opened.recv(1, socket.MSG_PEEK) is None
        except TimeoutError:
            return True
        finally:
            self.opened.settimeout(SECONDS)


@contextlib.contextmanager
def calling(port: int, room: int | None = None) -> Iterator[Caller]:
    """Provides a caller, whose receive buffer may be small."""
    with client(port, room) as made:
        caller = Caller(made.opened)
        try:
            yield caller
        finally:
            # The file object keeps the connection open.
            caller.answers.close()


@contextlib.contextmanager
def answering(text: str, *words: str) -> Iterator[tuple[Publication, int, int]]:
    """Runs pgshard publish, and yields it with its port and its port for callers."""
    with publishing(text, "--commands", "0", *words) as (program, port):
        line = program.line() or ""
        yield program, port, int(line.removeprefix("commands "))


def check_callers(tally: Tally) -> None:
    """Tests all of this."""
    text = head()
    check_words(tally, text)
    check_ports(tally, text)
    check_answers(tally, text)
    check_turns(tally, text)
    check_limits(tally, text)
    check_many(tally, text)
    check_lost(tally, text)
    check_stalled(tally, text)


def check_words(tally: Tally, text: str) -> None:
    """Tests usage errors and the help."""
    for wrong in WRONG_WORDS:
        status, output = pgshard("publish", "--port", "0", *wrong, text=text, seconds=SECONDS)
        tally.check(f"publish {' '.join(wrong)}", (status, output.startswith("command line\n")), (2, True))
    _, shown = pgshard("publish", "--help", text="", seconds=SECONDS)
    tally.check("the help of publish has --commands", "--commands <PORT>" in shown, True)


def check_ports(tally: Tally, text: str) -> None:
    """Tests the file of the ports, a port that is chosen, and ports that are taken."""
    with tempfile.NamedTemporaryFile("r") as file, answering(text, "--port-file", file.name) as (program, port, second):
        tally.check("both ports in the file", file.read(), f"{port}\n{second}\n")
        for words in ("--port", "0", "--commands", str(second)), ("--port", str(second), "--commands", "0"):
            with started([PGSHARD, "publish", *words], text) as other:
                tally.check(f"publish {' '.join(words)} at a port that is taken", other.end(), (4, []))
                said = [f"port {second} of 127.0.0.1 cannot be used: Address already in use (os error 98)\n"]
                tally.check(f"what publish {' '.join(words)} says", other.whole_log(), said)
    asked = free_port()
    with publishing(text, "--commands", str(asked)) as (program, _):
        tally.check("the port for callers that is asked for", program.line(), f"commands {asked}\n")


def check_answers(tally: Tally, text: str) -> None:
    """Tests the answers to a caller while there is a subscriber. Standard input is not read beyond the certificates."""
    with answering(text, "--keepalive", "86400") as (program, port, callers), calling(callers) as caller:
        for line, expected in ANSWERS:
            tally.check(f"a caller says {line}", caller.ask(line), f"{expected}\n")
        program.say("COMMIT TRUNCATE (orders);")
        caller.say("\n-- a remark\n")
        shown = [caller.ask("VIEW;"), caller.answers.readline(), caller.answers.readline()]
        sent = "sent 0/0 confirmed 0/0 disconnected\n"
        tally.check("a caller says VIEW;", shown, ["log 2\n", f"london {sent}", f"tokyo {sent}"])
        made = SHOP.publisher().__class__(SHOP.tables)
        made.commit([Insert("orders", (1, 20, 500, None, None))])
        with client(port) as connection:
            connection.start(LONDON)
            expected = made.stream(LONDON)
            tally.check("a stream beside a caller", connection.receive(len(expected)), expected)
        caller.say("QUIT;\n")
        tally.check("the end of a caller", caller.answers.read(), "")
        tally.check("the end by a caller", program.end(), (0, ["closed 2 1\n"]))


def check_turns(tally: Tally, text: str) -> None:
    """Checks that callers are answered one after another, and that a line that is incomplete at the end of a connection
    has no effect."""
    with answering(text) as (program, _, callers):
        with calling(callers) as first, calling(callers) as second:
            tally.check("the first caller", first.ask(commit_line(SHOP.commits[0])), "commit 1\n")
            second.say("COMMIT TRUNCATE (stock);\nnonsense\n")
            tally.check("the second caller, while there is a first", second.hears_nothing(), True)
            tally.check("the first caller again", first.ask("COMMIT TRUNCATE (accounts);"), "commit 2\n")
            first.say("COMMIT TRUNCATE (orders);\nCOMMIT TRUNCATE (orders);")
            first.opened.shutdown(socket.SHUT_WR)
            tally.check("the first caller's last answer", first.answers.read(), "commit 3\n")
            answers = [second.answers.readline(), second.answers.readline(), second.ask("COMMIT TRUNCATE (orders);")]
            tally.check("the second caller", answers, ["commit 4\n", "script 0 Expected\n", "commit 5\n"])
            second.say("QUIT;")
        with calling(callers) as third:
            tally.check("a caller after QUIT; without its newline", third.ask("COMMIT TRUNCATE (stock);"), "commit 6\n")
            third.say("QUIT;\nCOMMIT TRUNCATE (stock);\n")
            tally.check("the end after callers", program.end(), (0, ["closed 6 0\n"]))


def orders(count: int, note: str | None = None) -> list[Insert]:
    """Returns this many rows of london."""
    return [Insert("orders", (number, 20, 500, note, None)) for number in range(count)]


def limits() -> Iterator[tuple[str, str, str]]:
    """Yields lines at a limit and beyond it, each with a description and the expected answer. Each commit that is
    accepted truncates the table."""
    empty = "TRUNCATE (orders)"
    yield "a commit of the most commands", commit_line(orders(COMMANDS)), "commit 1"
    yield "a commit of one command more", commit_line(orders(COMMANDS + 1)), "refused TooManyCommands"
    longest = f"COMMIT {empty}, INSERT orders (1, 20, 500, '{'x' * TEXT}', NULL);"
    yield "the longest text", longest, "commit 2"
    longer = longest.replace("'x", "'xx")
    yield "a text of one byte more", longer, f"script {longer.index(chr(39))} TooMany"
    yield "a line as long as an input may be", f"COMMIT {empty};".ljust(INPUT), "commit 3"
    yield "a line of one byte more", f"COMMIT {empty};".ljust(INPUT + 1), "commit 4"
    long = commit_line(orders(COMMANDS, "x" * (INPUT // COMMANDS)))
    yield f"the most commands, of {len(long)} bytes", long, "commit 5"
    yield "a short line after these", f"COMMIT {empty};", "commit 6"


def check_limits(tally: Tally, text: str) -> None:
    """Tests lines at the limits, while memory is available, and the stream of the commit with the most commands."""
    with answering(text, "--keepalive", "86400") as (program, port, callers), calling(callers) as caller:
        for what, line, expected in limits():
            tally.check(f"a caller says {what}", caller.ask(line), f"{expected}\n")
            if expected == "commit 1":
                check_first(tally, port)
        caller.say("QUIT;\n")
        tally.check("the end after lines at the limits", program.end(), (0, ["closed 6 1\n"]))


def check_first(tally: Tally, port: int) -> None:
    """Checks the stream of the first commit."""
    made = SHOP.publisher().__class__(SHOP.tables)
    made.commit(orders(COMMANDS))
    with client(port) as connection:
        connection.start(LONDON)
        expected = made.stream(LONDON)
        tally.check("the stream of the most commands", connection.receive(len(expected)), expected)


def check_many(tally: Tally, text: str) -> None:
    """Tests many callers, one after another."""
    with answering(text) as (program, _, callers):
        answers = []
        for row in orders(CALLERS):
            with calling(callers) as caller:
                answers.append(caller.ask(commit_line([row])))
        tally.check("many callers", answers, [f"commit {number}\n" for number in range(1, CALLERS + 1)])
        with calling(callers) as caller:
            caller.say("QUIT;\n")
            tally.check("the end after many callers", program.end(), (0, [f"closed {CALLERS} 0\n"]))


def check_lost(tally: Tally, text: str) -> None:
    """Tests callers that send nothing, or whose connections are lost."""
    with answering(text) as (program, _, callers):
        for said in "", "VIEW;\n" * 100, "COMMIT TRUNCATE (stock);\n", "COMMIT":
            with calling(callers) as lost:
                lost.say(said)
                lost.opened.setsockopt(socket.SOL_SOCKET, socket.SO_LINGER, struct.pack("ii", 1, 0))
        with calling(callers) as caller:
            answer = caller.ask("COMMIT TRUNCATE (orders);")
            tally.check("a caller after some that were lost", answer in ("commit 1\n", "commit 2\n"), True)
            caller.say("QUIT;\n")
            status, _ = program.end()
            tally.check("the end after lost callers", status, 0)


def check_stalled(tally: Tally, text: str) -> None:
    """Checks that a caller that does not read its answer is given up, and the next one is answered."""
    rows = [Insert("orders", (number, 20, 500, "x" * LONG_TEXT, None)) for number in range(LONG_ROWS)]
    with answering(text, "--write-timeout", str(STALL)) as (program, _, callers):
        with calling(callers, LITTLE) as stalled, calling(callers) as caller:
            for row in rows:
                stalled.ask(commit_line([row]))
            begin = time.monotonic()
            stalled.say("VIEW;\n" * VIEWS)
            tally.check("a caller after one that reads nothing", caller.ask("COMMIT;"), "refused EmptyTransaction\n")
            waited = time.monotonic() - begin
            tally.check("how long it waits", STALL - 0.1 < waited < STALL + DELAY, True)
            caller.say("QUIT;\n")
            tally.check("the end after a caller that reads nothing", program.end(), (0, [f"closed {LONG_ROWS} 0\n"]))
