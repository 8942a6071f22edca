"""Tests what tools/front answers itself, what it refuses, and how it ends."""

import socket
import struct
import subprocess
import sys
import tempfile

from programs import TOOLS
from refusing_places import full_device, status_within
from server import environment
from tally import Tally

from . import messages
from .clients import Connection, client
from .program import NO_PORT, SECONDS, Started, free_port, fronting, nobody, serving
from .publisher import Insert
from .shardings import halves

REPLICATION = "replication=database host=127.0.0.1 user=postgres dbname=shop"

NO_SQL = (
    "ERROR:  this is pgshard front, which relays the streams of pgshard serve and runs no SQL\n"
    "HINT:  It answers START_REPLICATION SLOT .. LOGICAL, and what clients ask before that.\n")
NO_COPY = (
    "ERROR:  pgshard front has tables to copy only as they are at the beginning of the log, which is empty\n"
    "HINT:  A subscription copies them by slots of its own. Other clients start their streams from 0/0.\n")

# What psql sends, and what it prints.
QUERIES = [
    ("SELECT 1", NO_SQL),
    ("BEGIN", NO_COPY),
    ("BEGIN READ ONLY ISOLATION LEVEL REPEATABLE READ", ""),
    ("COPY public.t (id) TO STDOUT", NO_COPY),
    ('CREATE_REPLICATION_SLOT "s0" LOGICAL pgoutput (SNAPSHOT \'use\')', NO_COPY),
    ("CREATE_REPLICATION_SLOT s0 LOGICAL pgoutput NOEXPORT_SNAPSHOT", "s0|0/40||pgoutput\n"),
    ("CREATE_REPLICATION_SLOT s0 LOGICAL test_decoding", NO_SQL),
    ("CREATE_REPLICATION_SLOT s0 PHYSICAL", NO_SQL),
    ('DROP_REPLICATION_SLOT "s0" WAIT', ""),
    ("CREATE_REPLICATION_SLOT pg_1_sync_2_3 LOGICAL pgoutput", "pg_1_sync_2_3|0/40||pgoutput\n"),
    ("DROP_REPLICATION_SLOT pg_1_sync_2_3", ""),
    ("DROP_REPLICATION_SLOT pg_1_sync_2_3", 'ERROR:  replication slot "pg_1_sync_2_3" does not exist\n'),
    ("IDENTIFY_SYSTEM", "0|1|0/0|shop\n"),
    ("SHOW server_version", "15.18\n"),
    ("SHOW SERVER_ENCODING;", "UTF8\n"),
    ("SHOW work_mem", 'ERROR:  unrecognized configuration parameter "work_mem"\n'),
    ("SELECT pg_catalog.set_config('search_path', '', false);", "\n"),
    (";", ""),
    (
        "START_REPLICATION SLOT \"s2\" LOGICAL 0/0 (proto_version '1', publication_names 'pa')",
        'ERROR:  replication slot "s2" does not exist\n',
    ),
    (
        "START_REPLICATION SLOT s0 LOGICAL 0/0 (proto_version '4', publication_names 'pa')",
        'ERROR:  option "proto_version" is not supported\n',
    ),
    ("START_REPLICATION SLOT s0 LOGICAL 0/0 0", "ERROR:  cannot read the replication command\n"),
]

# The catalog that a front is given, and the queries of subscribers about it.
CATALOG = """\
CREATE SCHEMA "S"; /* CREATE TABLE no (id integer); */
CREATE TABLE t (id integer PRIMARY KEY, "a,b" text); -- CREATE TABLE no (id integer);
CREATE TABLE "S"."T" (id integer, "Q" text NOT NULL, PRIMARY KEY (id, "Q"));
CREATE TABLE u (id integer PRIMARY KEY);
CREATE PUBLICATION every FOR ALL TABLES;
CREATE PUBLICATION none WITH (publish = 'insert');
CREATE PUBLICATION first FOR TABLE ONLY t * WHERE (id < 5 AND ("a,b" = 'x, u' OR id IN (1, 2))), u;
CREATE PUBLICATION schemas FOR TABLES IN SCHEMA "S", CURRENT_SCHEMA;
CREATE PUBLICATION mixed FOR TABLE public.u WHERE (id = 1), TABLES IN SCHEMA "S" WITH (publish_via_partition_root);
CREATE SUBSCRIPTION s0 CONNECTION '' PUBLICATION every;
%%
CREATE TABLE no (id integer PRIMARY KEY);
"""
TABLES_OF = """
    SELECT DISTINCT t.schemaname, t.tablename{columns}
    FROM pg_catalog.pg_publication_tables t
    WHERE t.pubname IN ({names})
"""
PUBLICATIONS_OF = "SELECT t.pubname FROM pg_catalog.pg_publication t WHERE t.pubname IN ('first', 'unknown', 'mixed')"
ASKED = [
    (["every"], ["public|t", "S|T", "public|u"]),
    (["none"], []),
    (["first"], ["public|t", "public|u"]),
    (["schemas"], ["public|t", "S|T", "public|u"]),
    (["mixed"], ["S|T", "public|u"]),
    (["first", "mixed"], ["public|t", "S|T", "public|u"]),
    (["unknown"], []),
]
COLUMNS = ['public|t|{"id","a,b"}', 'S|T|{"id","Q"}', 'public|u|{"id"}']
NO_CATALOG = (
    "ERROR:  pgshard front was given no catalog, so it does not know the tables of publications\n"
    "HINT:  Start it with --catalog FILE, the input of pgshard serve or its first part.\n")

# Starts, each with what the publisher is sent if clients are told version 15.18.
STARTS = [
    (
        """START_REPLICATION SLOT "s" LOGICAL 0/0 (proto_version '3', publication_names '"a"')""",
        """START_REPLICATION SLOT "s" LOGICAL 0/0 (proto_version '1', publication_names '"a"')""",
    ),
    (
        """START_REPLICATION SLOT "s (1)" LOGICAL 0/AB """
        """(proto_version '2', streaming 'on', publication_names '"a,b","it''s"', binary 'true', two_phase 'on')""",
        """START_REPLICATION SLOT "s (1)" LOGICAL 0/AB (proto_version '1', publication_names '"a,b","it''s"')""",
    ),
    (
        """start_replication slot s logical 1/0 ( "proto_version" '1' , "messages" 'true', publication_names 'a' ) ;""",
        """start_replication slot s logical 1/0 ("proto_version" '1', publication_names 'a')""",
    ),
    (
        "START_REPLICATION SLOT s LOGICAL 0/0 (proto_version '4', origin)",
        "START_REPLICATION SLOT s LOGICAL 0/0 (proto_version '4', origin)",
    ),
    ("START_REPLICATION SLOT s LOGICAL 0/0", "START_REPLICATION SLOT s LOGICAL 0/0"),
    ("START_REPLICATION SLOT s LOGICAL 0/0 (a 'b' c)", "START_REPLICATION SLOT s LOGICAL 0/0 (a 'b' c)"),
]

# First packets without their lengths, each with the beginning of the answer.
PACKETS = [
    ("TLS is asked for", struct.pack("!I", 80877103), b"N"),
    ("GSS encryption is asked for", struct.pack("!I", 80877104), b"N"),
    ("version 3.2 is asked for", b"\0\3\0\2user\0postgres\0\0", bytes.fromhex("76 0000000c 00000000 00000000 52")),
    ("version 2 is asked for", struct.pack("!I", 0x20000) + bytes(292), b"E"),
    ("a query is canceled", struct.pack("!III", 80877102, 1, 1), b""),
    ("the packet has no version", b"", b"E"),
]
START = "START_REPLICATION SLOT s0 LOGICAL 0/0 (proto_version '{version}', publication_names 'pa')"
LOST = messages.frame(b"E", b"SFATAL\0VFATAL\0C08006\0Mthe connection to pgshard serve has ended\0\0")
# Frames that the publisher sends, each with the client's position afterwards.
BEGIN, COMMIT = messages.begin(64, 3), messages.commit(64, 128)
RELAYED = [
    (messages.xlog_data(64, BEGIN), messages.xlog_data(64, BEGIN), 0),
    (messages.xlog_data(64, COMMIT), messages.xlog_data(128, COMMIT), 128),
    (messages.keepalive(192), messages.keepalive(192), 192),
    # A client's position never decreases.
    (2 * messages.xlog_data(64, COMMIT), 2 * messages.xlog_data(128, COMMIT), 192),
]
DONE = b"".join([
    messages.COPY_DONE, messages.frame(b"C", b"COPY 0\0"), messages.frame(b"C", b"START_REPLICATION\0"),
    messages.frame(b"Z", b"I")])
STARTUP = struct.pack("!I", 0x30000) + b"user\0postgres\0database\0shop\0replication\0database\0\0"

# Command-line arguments, and the status. PORT and TAKEN are ports, and FEED is a file that is no catalog.
FEED = TOOLS.parent / "examples" / "feed.txt"
COMMAND_LINES = [
    ((), 2),
    (("--port", "PORT", "--backend", "0"), 2),
    (("--port", "1", "--backend", "65536"), 2),
    (("--port", "PORT", "--backend", "1", "--server-version", "14.9"), 2),
    (("--port", "PORT", "--backend", "1", "--catalog", "/nowhere"), 2),
    (("--port", "PORT", "--backend", "1", "--catalog", "FEED"), 2),
    (("--port", "PORT", "--backend", "1", "--password-file", "/nowhere"), 2),
    (("--port", "PORT", "--backend", "1", "--password-file", "/dev/null"), 2),
    (("--port", "PORT", "--backend", "1", "--certificate", "/nowhere"), 2),
    (("--port", "PORT", "--backend", "1", "--key", "/nowhere"), 2),
    (("--port", "PORT", "--backend", "1", "--listen", "localhost"), 2),
    (("--port", "PORT", "--backend", "1", "--listen", "0.0.0.0"), 2),
    (("--port", "PORT", "--backend", "1", "--listen", "::"), 2),
    (("--port", "PORT", "--backend", "1", "--timeout", "0"), 2),
    (("--port", "TAKEN", "--backend", "1"), 4),
    (("--help",), 0),
    (("--version",), 0),
]

NO_MEMORY = 5
# Limits of memory in kB. With the greatest, the front starts.
LIMITS = (*range(8_000, 36_000, 4_000), 60_000)


def check_front(tally: Tally) -> None:
    """Tests what needs psql, and what needs single bytes."""
    with tempfile.NamedTemporaryFile("w", suffix=".txt") as file:
        file.write(CATALOG)
        file.flush()
        check_command_lines(tally)
        check_refused(tally)
        with nobody() as backend, fronting(backend, "--catalog", file.name) as (front, port):
            check_catalog(tally, port)
            check_packets(tally, port)
            check_extended(tally, port)
            with client(port) as connected:
                connected.send(packet(STARTUP))
                connected.receive(1)
                front.process.terminate()
                tally.check("the end of front with a client", front.end(), (0, []))
    check_before_publisher(tally)
    check_starts(tally)
    check_relay(tally)


def check_before_publisher(tally: Tally) -> None:
    with serving(halves([[Insert("t", (7, "eu"))]]).input(), "--connections", "20") as (program, port):
        with fronting(port) as (_, front_port):
            for query, printed in QUERIES:
                tally.check(f"what front answers to {query}", psql(front_port, query), printed)
            tally.check("a question for publications without a catalog", psql(front_port, PUBLICATIONS_OF), NO_CATALOG)
            found = psql(front_port, "SHOW server_version", PGCLIENTENCODING="LATIN1")
            expected = "FATAL:  the only supported encoding is UTF8, not LATIN1\n"
            tally.check("a client with another encoding", found[-len(expected):], expected)
        with fronting(port, "--server-version", "13.18") as (_, front_port):
            tally.check("the version that is told", psql(front_port, "SHOW server_version"), "13.18\n")
            found = psql(front_port, START.format(version=3))
            tally.check("a later protocol before 13.18", found, 'ERROR:  option "proto_version" is not supported\n')
        check_loss(tally, program, port)


def psql(port: int, query: str, **variables: str) -> str:
    """Returns what psql prints for a query, including errors."""
    command = ["psql", "-X", "-q", "-A", "-t", "-w", f"{REPLICATION} port={port}", "-c", query]
    answer = subprocess.run(
        command, stdin=subprocess.DEVNULL, stdout=subprocess.PIPE, stderr=subprocess.STDOUT, encoding="utf-8",
        timeout=SECONDS, env=environment() | variables)
    return answer.stdout


def check_catalog(tally: Tally, port: int) -> None:
    """Tests subscribers' queries about publications, and the answer if no publisher listens."""
    for names, tables in ASKED:
        listed = ", ".join(f"'{name}'" for name in names)
        found = psql(port, TABLES_OF.format(columns="", names=listed))
        tally.check(f"the tables of {listed}", found.splitlines(), tables)
    found = psql(port, TABLES_OF.format(columns="\n, t.attnames", names="'every'"))
    tally.check("the columns of tables", found.splitlines(), COLUMNS)
    tally.check("the publications that are there", psql(port, PUBLICATIONS_OF), "first\nmixed\n")
    found = psql(port, START.format(version=1))
    tally.check("a start where nobody listens", found.startswith("ERROR:  no pgshard serve or publish is at port "), True)


def check_packets(tally: Tally, port: int) -> None:
    for what, given, expected in PACKETS:
        with client(port) as made:
            made.send(packet(given))
            tally.check(f"what front answers where {what}", made.receive(len(expected) or 1), expected)


def check_extended(tally: Tally, port: int) -> None:
    """Checks that a query of the extended protocol is refused, and the connection continues."""
    with client(port) as made:
        made.send(packet(STARTUP))
        for kind in b"P", b"B", b"E", b"S":
            made.send(messages.frame(kind, bytes(4)))
        made.send(messages.query("SHOW TimeZone") + messages.TERMINATE)
        frames, _ = messages.frames_of(made.receive_all())
        kinds = b"".join(whole[:1] for whole in frames)
        tally.check("the frames of a query of the extended protocol", kinds, b"RSSSSSSSSSSSKZ" + b"EZ" + b"TDCZ")


def check_loss(tally: Tally, program: Started, port: int) -> None:
    """Checks that a client is told that the publisher is gone."""
    with fronting(port) as (_, front_port), client(front_port) as made:
        made.send(packet(STARTUP) + messages.query(START.format(version=3)))
        made.receive_until(messages.COPY_BOTH_RESPONSE)
        program.stop()
        frames, _ = messages.frames_of(made.receive_all())
        tally.check("what a client is told last", frames[-1:], [LOST])


def check_starts(tally: Tally) -> None:
    """Checks how starts are converted to protocol version 1. The publisher here reads one and closes the connection."""
    with socket.create_server(("127.0.0.1", 0)) as publisher:
        publisher.settimeout(SECONDS)
        with fronting(publisher.getsockname()[1]) as (_, port):
            for start, expected in STARTS:
                with client(port) as made:
                    made.send(packet(STARTUP) + messages.query(start))
                    accepted, _ = publisher.accept()
                    with accepted:
                        found = accepted.recv(1 << 16)
                    # The front then asks for the beginning of the stream with a status that has a clock.
                    end = len(found) - len(messages.status(0))
                    tally.check(f"how {start} is passed on", found[:end], messages.query(expected))
                    frames, _ = messages.frames_of(made.receive_all())
                    tally.check("what a client is told of a start that nobody answers", frames[-1], LOST)


def check_relay(tally: Tally) -> None:
    """Tests a stream frame by frame: what each side gets, and the replies of the front itself."""
    with socket.create_server(("127.0.0.1", 0)) as listener, fronting(listener.getsockname()[1]) as (_, port):
        listener.settimeout(SECONDS)
        with client(port) as made:
            made.send(packet(STARTUP))
            # A client may start again after its stream has ended.
            for slot in "s0", "s1":
                start = messages.query(START.format(version=1).replace("s0", slot))
                made.send(start)
                accepted, _ = listener.accept()
                with accepted:
                    check_frames(tally, made, Connection(accepted), start)


def check_frames(tally: Tally, made: Connection, publisher: Connection, start: bytes) -> None:
    # For a slot that the front does not know, it asks where the stream begins.
    publisher.receive(len(start + messages.status(0)))
    publisher.send(messages.COPY_BOTH_RESPONSE)
    made.receive_until(messages.COPY_BOTH_RESPONSE)
    for told, expected, position in RELAYED:
        publisher.send(told)
        tally.check(f"what a client gets of {told.hex()}", made.receive(len(expected)), expected)
        asked, reply = messages.status(position, wants_reply=True), messages.keepalive(position)
        made.send(asked)
        tally.check("the reply that front gives", made.receive(len(reply)), reply)
        tally.check("what the publisher gets of a status", publisher.receive(len(asked)), asked)
    last = messages.status(0) + messages.COPY_DONE
    made.send(last)
    tally.check("what the publisher gets at the end", publisher.receive(len(last)), last)
    publisher.send(messages.COPY_DONE)
    tally.check("what a client gets at the end", made.receive(len(DONE)), DONE)


def check_command_lines(tally: Tally) -> None:
    with socket.create_server(("127.0.0.1", 0)) as taken:
        named = {"PORT": str(free_port()), "TAKEN": str(taken.getsockname()[1]), "FEED": str(FEED)}
        for words, status in COMMAND_LINES:
            given = [named.get(word, word) for word in words]
            answer = subprocess.run([TOOLS / "front", *given], capture_output=True, timeout=SECONDS)
            tally.check(f"front {' '.join(words)}", answer.returncode, status)
            tally.check(f"front {' '.join(words)}: a traceback", b"Traceback" in answer.stderr, False)


def check_refused(tally: Tally) -> None:
    """Tests an output that is full, and limits of memory at which Python starts."""
    with full_device() as full:
        for words in (("--help",), ("--port", "0", "--backend", "1")) if full is not None else ():
            answer = subprocess.run(
                [TOOLS / "front", *words], stdout=full, stderr=subprocess.PIPE, encoding="utf-8", timeout=SECONDS)
            tally.check(f"an output that is full: {words}", (answer.returncode, answer.stderr), (
                NO_PORT, "front: the output cannot be written: No space left on device\n"))
    found = {
        status_within(limit, [sys.executable, TOOLS / "front", "--version"], environment()) for limit in LIMITS
        if status_within(limit, [sys.executable, "-c", ""], environment()) == 0}
    tally.check("the statuses if memory is refused", found, {0, NO_MEMORY})


def packet(body: bytes) -> bytes:
    """Returns a first packet, which has no type byte."""
    return struct.pack("!I", len(body) + 4) + body
