"""Tests `pgshard publish`: commits as they arrive, clients that come and go, and random workloads sent to PostgreSQL
subscribers."""

import contextlib
import dataclasses
import pathlib
import random
import re
import tempfile
import time
from collections.abc import Iterator

from programs import PGSHARD, pgshard, without_subscriptions
from random_cases.comparison import seed
from script_checks import installed
from server import Server
from tally import Tally

from . import messages
from .clients import Connection, back_again, client
from .crowded import check_crowded
from .feeds import cutting_some, workload
from .feeds_checks import CUTS, LATEST_CUT, MADE, TABLES, check_rows, faults, made_by, rows_of, subscribe
from .front_checks import DONE, STARTUP, packet
from .program import SECONDS, Publication, fronting, publishing, started
from .publisher import Command, command_text
from .shop import FILTERS, LONDON, SHOP
from .subscribers_checks import SETTINGS, transaction_text

WORKLOADS = 20

# Lines, each with the first line of its answer. All rows are london's.
ANSWERS = [
    ("COMMIT INSERT orders (1, 20, 500, NULL, NULL);", "commit 1"),
    ("COMMIT INSERT orders (2, 30, 1, NULL, NULL), INSERT orders (1, 20, 500, NULL, NULL);", "refused At 2 DuplicateKey"),
    ("COMMIT;", "refused EmptyTransaction"),
    ("COMMIT DELETE orders (9);", "refused At 1 NoSuchRow"),
    ("COMMIT INSERT orders (2, 30);", "refused At 1 Row Width"),
    ("COMMIT INSERT parcels (2);", "script 14 UnknownName"),
    ("commit delete orders (1)", "script 24 Expected"),
    ("OPEN 0;", "script 0 Expected"),
    ("COMMIT; COMMIT;", "script 8 Expected"),
    ("commit delete orders (1); ", "commit 2"),
]


def head() -> str:
    """Returns the catalog and the certificates of the shop."""
    _, certificates = pgshard("make", text=SHOP.catalog, seconds=SECONDS)
    return f"{SHOP.catalog}%%\n{certificates}%%\n"


def commit_line(commands: list[Command]) -> str:
    return f"COMMIT {', '.join(map(command_text, commands))};"


def check_publish(tally: Tally, server: Server) -> None:
    """Tests all of this."""
    text = head()
    check_answers(tally, text)
    check_ports(tally, text)
    check_stream(tally, text)
    check_following(tally, text)
    check_crowded(tally)
    check_files(tally, text)
    for setting in SETTINGS:
        server.psql("postgres", setting)
    for database in MADE.values():
        server.create(database, without_subscriptions(SHOP.catalog))
    check_troubles(tally, server, text)
    check_workloads(tally, server, text)
    for database in MADE.values():
        server.psql("postgres", f"DROP DATABASE {database} WITH (FORCE);")


def check_answers(tally: Tally, text: str) -> None:
    """Checks that each line is answered at once."""
    with publishing(text) as (program, _):
        for line, expected in ANSWERS:
            tally.check(f"publish answers {line}", program.ask(line), f"{expected}\n")
        program.say("")
        program.say("-- a remark")
        shown = [program.ask("VIEW;"), program.line(), program.line()]
        sent = "sent 0/0 confirmed 0/0 disconnected\n"
        tally.check("publish answers VIEW;", shown, ["log 2\n", f"london {sent}", f"tokyo {sent}"])
        tally.check("the end of publish", program.finish(), (0, ["closed 2 0\n"]))
    with publishing(text, "--limit", "1") as (program, _):
        lines = [program.ask("COMMIT INSERT orders (1, 20, 5, NULL, NULL);"), program.ask("COMMIT DELETE orders (1);")]
        tally.check("publish with a full log", lines, ["commit 1\n", "refused LogFull\n"])
        program.say("QUIT;")
        tally.check("publish after QUIT;", program.end(), (0, ["closed 1 0\n"]))


def check_ports(tally: Tally, text: str) -> None:
    """Tests the file of a port, and a port that is taken."""
    with tempfile.NamedTemporaryFile("r") as file, publishing(text, "--port-file", file.name) as (_, port):
        tally.check("the port in the file", file.read(), f"{port}\n")
        with started([PGSHARD, "publish", "--port", str(port)], text) as second:
            tally.check("publish at a port that is taken", second.end(), (4, []))
            said = [f"port {port} of 127.0.0.1 cannot be used: Address already in use (os error 98)\n"]
            tally.check("what it says", second.whole_log(), said)


def check_stream(tally: Tally, text: str) -> None:
    """Checks that a client that is cut off after each commit gets each transaction, whatever it had confirmed."""
    with publishing(text, "--keepalive", "86400") as (program, port):
        made = SHOP.publisher().__class__(SHOP.tables)
        position = 0
        for number, commands in enumerate(SHOP.commits, 1):
            if number in SHOP.refused:
                continue
            tally.check(f"commit {number}", program.ask(commit_line(commands)), f"commit {len(made.log) + 1}\n")
            made.commit(commands)
            with back_again(port, LONDON, position) as connection:
                expected = made.stream(LONDON, position)
                tally.check(f"the stream from {position}", connection.receive(len(expected)), expected)
            position = made.end()
        status, lines = program.finish()
        tally.check("the end of publish", (status, len(lines)), (0, 1))


def check_following(tally: Tally, text: str) -> None:
    """Checks that a copy is sent what its slot is sent after the copy's stream has begun, and that a subscriber whose
    connection is lost while a table catches up waits for the copy."""
    copies = "pg_1_sync_2_3"
    with with_front(text) as (program, port), client(port) as stream, client(port) as copy:
        program.ask("COMMIT INSERT orders (1, 20, 500, NULL, NULL);")
        stream.send(packet(STARTUP))
        stream.start(LONDON)
        tally.check("the commits of a slot", commit_ends(stream, 1), [128])
        made = f"CREATE_REPLICATION_SLOT {copies} LOGICAL pgoutput USE_SNAPSHOT"
        queries = "BEGIN READ ONLY ISOLATION LEVEL REPEATABLE READ", made, "COMMIT"
        copy.send(packet(STARTUP) + b"".join(map(messages.query, queries)))
        copy.start(dataclasses.replace(LONDON, slot=copies))
        tally.check("the commits of a copy", commit_ends(copy, 1), [128])
        program.ask("COMMIT INSERT orders (2, 20, 500, NULL, NULL);")
        tally.check("the next commit of the slot", commit_ends(stream, 1), [192])
        tally.check("the next commit of the copy", commit_ends(copy, 1), [192])
        copy.send(messages.COPY_DONE)
        copy.receive_until(DONE)
        copy.send(messages.query(f"DROP_REPLICATION_SLOT {copies} WAIT"))
        copy.receive_until(b"Z\0\0\0\x05I")
        with client(port) as again:
            again.send(packet(STARTUP))
            again.start(dataclasses.replace(LONDON, slot=copies))
            tally.check("a copy that has not heard that its slot is dropped", commit_ends(again, 2), [128, 192])


def commit_ends(connection: Connection, count: int) -> list[int]:
    """Reads this many Commit messages. Returns the ends of their transactions."""
    got, found = b"", []
    while len(found) < count:
        piece = connection.receive_as_is(1)
        if len(piece) != 1:
            break
        got += piece
        frames, got = messages.frames_of(got)
        found += [messages.end_in([it], 0) for it in frames if messages.end_in([it], 0)]
    return found


def check_files(tally: Tally, text: str) -> None:
    """Tests the script pgshard with a file for each part, and with one file, and commands on standard input."""
    catalog, certificates, _ = text.split("%%\n")
    with tempfile.TemporaryDirectory() as name:
        folder = pathlib.Path(name)
        installed(folder / "copy")
        for file, part in ("catalog", catalog), ("certificates", certificates), ("both", text.removesuffix("%%\n")):
            (folder / file).write_text(part)
        for files in ["catalog", "certificates"], ["both"]:
            words = [str(folder / "copy" / "pgshard"), "publish", "--port", "0", *(str(folder / it) for it in files)]
            program = Publication(words)
            try:
                port = int((program.line() or "listening 0").split()[1])
                tally.check(f"commit 1 by {files}", program.ask(ANSWERS[0][0]), "commit 1\n")
                with client(port) as connection:
                    connection.start(LONDON)
                    expected = messages.COPY_BOTH_RESPONSE
                    tally.check(f"a stream by {files}", connection.receive(len(expected)), expected)
                tally.check(f"the end by {files}", program.finish(), (0, ["closed 1 1\n"]))
            finally:
                program.stop()


def check_troubles(tally: Tally, server: Server, text: str) -> None:
    """Tests a conflict that is resolved, and a subscription that is disabled for a while."""
    with with_front(text) as (program, port):
        subscribe_all(server, port)
        server.psql(MADE["london"], "INSERT INTO orders VALUES (1, 20, 1, NULL, NULL);")
        program.ask("COMMIT INSERT orders (1, 20, 500, NULL, NULL), INSERT orders (2, 250, 7, NULL, NULL);")
        check_table(tally, server, "tokyo beside a conflict", "tokyo", "2")
        server.psql(MADE["london"], "DELETE FROM orders;")
        check_table(tally, server, "london after its conflict", "london", "1")
        server.psql(MADE["tokyo"], "ALTER SUBSCRIPTION s DISABLE;")
        program.ask("COMMIT INSERT orders (3, 250, 7, NULL, NULL), INSERT orders (4, 20, 7, NULL, NULL);")
        check_table(tally, server, "london while tokyo is disabled", "london", "1 4")
        server.psql(MADE["tokyo"], "ALTER SUBSCRIPTION s ENABLE;")
        check_table(tally, server, "tokyo when it is enabled again", "tokyo", "2 3")
        drop_all(server)
        tally.check("the end after troubles", program.finish()[0], 0)


def check_table(tally: Tally, server: Server, name: str, slot: str, expected: str) -> None:
    """Checks the orders of a subscriber, in time."""
    until = time.monotonic() + SECONDS
    query = "SELECT coalesce(string_agg(id::text, ' ' ORDER BY id), '') FROM orders;"
    while (found := server.psql(MADE[slot], query)) != expected and time.monotonic() < until:
        time.sleep(0.1)
    tally.check(name, found, expected)


def check_workloads(tally: Tally, server: Server, text: str) -> None:
    """Runs random workloads, whose commits are sent one at a time while connections are cut."""
    cuts = 0
    for number in range(WORKLOADS):
        chosen = random.Random(f"{seed()} publish {number}")
        cuts += check_workload(tally, server, f"publish, workload {number} of seed {seed()}", text, chosen)
    print(f"  {cuts} connections cut in {WORKLOADS} workloads")


def check_workload(tally: Tally, server: Server, name: str, text: str, chosen: random.Random) -> int:
    """Runs a workload. Returns how many connections were cut."""
    made = dataclasses.replace(SHOP, commits=workload(chosen))
    server.psql(MADE["publisher"], "\n".join([f"TRUNCATE {TABLES};", *map(transaction_text, made.commits)]))
    left = [chosen.randrange(1, LATEST_CUT) for _ in range(chosen.randrange(CUTS + 1))]
    with publishing(text) as (program, port), cutting_some(port, left) as (cuts, cut_port), in_file(text) as file:
        with fronting(cut_port, "--catalog", file) as (front, front_port):
            subscribe_all(server, front_port)
            answers = []
            for commands in made.commits:
                answers.append(program.ask(commit_line(commands)))
                time.sleep(chosen.choice([0, 0, 0.05]))
            tally.check(f"{name}: answers", answers, [f"commit {at}\n" for at in range(1, len(made.commits) + 1)])
            shards = {it.slot: rows_of(server, "publisher", FILTERS[it.slot]) for it in SHOP.subscribers}
            check_rows(tally, server, name, shards)
            drop_all(server)
            status, lines = program.finish()
            closed = bool(re.fullmatch(rf"closed {len(made.commits)} \d+\n", "".join(lines)))
            tally.check(f"{name}: the end", (status, closed), (0, True))
            tally.check(f"{name}: faults of front", faults(front), [])
            return made_by(cuts)


@contextlib.contextmanager
def in_file(text: str) -> Iterator[str]:
    with tempfile.NamedTemporaryFile("w", suffix=".txt") as file:
        file.write(text)
        file.flush()
        yield file.name


@contextlib.contextmanager
def with_front(text: str) -> Iterator[tuple[Publication, int]]:
    """Runs publish with a front, and yields it with the front's port."""
    with publishing(text) as (program, port), in_file(text) as file:
        with fronting(port, "--catalog", file) as (_, front_port):
            yield program, front_port


def subscribe_all(server: Server, port: int) -> None:
    for subscriber in SHOP.subscribers:
        connected = f"host=127.0.0.1 port={port} user=postgres dbname=shop sslmode=disable"
        subscribe(server, subscriber, connected, ", create_slot = false, copy_data = false")


def drop_all(server: Server) -> None:
    for subscriber in SHOP.subscribers:
        server.told(MADE[subscriber.slot], "DROP SUBSCRIPTION s;")
