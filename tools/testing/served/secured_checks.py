"""Tests tools/front with a password and TLS, by psql, and with bytes that no client should send."""

import contextlib
import pathlib
import shutil
import struct
import subprocess
import tempfile
from collections.abc import Iterator

from tally import Tally

from . import messages
from .clients import client
from .front_checks import STARTUP, packet, psql
from .program import fronting, nobody

PASSWORD = "a, long=password"
DENIED = 'FATAL:  password authentication failed for user "postgres"\n'
NOT_SENT = "fe_sendauth: no password supplied\n"
PLAIN = "FATAL:  pgshard front accepts only TLS connections; use sslmode=require\n"

TLS = struct.pack("!I", 80877103)
# The first message of the example in RFC 7677, and messages that are not a first message.
MECHANISM = b"SCRAM-SHA-256\0"
FIRST = b"n,,n=user,r=rOprNGfwEbeRWgbNEkqO"
SASL = bytes.fromhex("52 00000017 0000000a") + MECHANISM + b"\0"
# The length of a frame's head, the client's nonce and the server's, a salt in base64, and the number of iterations.
CONTINUE = 9 + len(b"r=") + 20 + 24 + len(b",s=") + 24 + len(b",i=4096")
NO_ANSWER = messages.frame(b"E", b"SFATAL\0VFATAL\0C08P01\0Mexpected a password message\0\0")
BAD_FIRSTS = [
    FIRST, b"SCRAM-SHA-1\0" + struct.pack("!i", len(FIRST)) + FIRST, b"", b"\0",
    *(MECHANISM + struct.pack("!i", len(it)) + it for it in (
        b"", b",", b"n,,", b"n,,n=,r=", b"p=tls-unique,,n=user,r=abc", b"n,a=other,n=user,r=abc", b"n,,m=x,n=,r=abc")),
]
PROOF = 43 * b"A" + b"="
BAD_LASTS = [
    b"", b"c=biws", b"c=biws,r={nonce}", b"c=eSws,r={nonce},p=" + PROOF, b"c=biws,r={nonce}x,p=" + PROOF,
    b"c=biws,r={nonce},p=AAAA", b"c=biws,r={nonce},p=!!!!", b"c=biws,r={nonce},p=" + PROOF, b"\xff\xff,\xff,\xff"]


def check_secured(tally: Tally) -> None:
    """Tests a password with TLS and without."""
    with tempfile.TemporaryDirectory() as name:
        folder = pathlib.Path(name)
        file = folder / "password"
        file.write_text(f"{PASSWORD}\nanother line\n", encoding="ascii")
        with nobody() as port, fronting(port, "--password-file", str(file)) as (_, front_port):
            check_password(tally, front_port)
            check_exchanges(tally, front_port)
        if shutil.which("openssl") is None:
            print("skipped: TLS, since openssl is not installed (apt-get install openssl)")
            return
        make_certificate(folder)
        check_tls(tally, folder, file)


def check_password(tally: Tally, port: int) -> None:
    """Checks that only a client that knows the password is admitted."""
    for given, ending in (PASSWORD, "UTC\n"), (f"{PASSWORD} ", DENIED), ("another line", DENIED), ("", NOT_SENT):
        variables = {"PGPASSWORD": given, "PGPASSFILE": "/dev/null"}
        found = psql(port, "SHOW TimeZone", **variables)
        tally.check(f"psql with the password {given!r}", found[-len(ending):], ending)


def check_exchanges(tally: Tally, port: int) -> None:
    """Tests wrong SCRAM messages at each step."""
    for first in BAD_FIRSTS:
        with exchanging(port) as made:
            made.send(messages.frame(b"p", first))
            check_denied(tally, f"a first message {first!r}", made.receive_all())
    for last in BAD_LASTS:
        with exchanging(port) as made:
            made.send(messages.frame(b"p", MECHANISM + struct.pack("!i", len(FIRST)) + FIRST))
            found = made.receive(CONTINUE)
            nonce = found[9:].split(b",")[0].removeprefix(b"r=")
            tally.check("the nonce begins with the client's", nonce.startswith(FIRST[-20:]) and len(nonce) > 40, True)
            made.send(messages.frame(b"p", last.replace(b"{nonce}", nonce)))
            check_denied(tally, f"a last message {last!r}", made.receive_all())
    with exchanging(port) as made:
        made.send(messages.query("SHOW TimeZone"))
        tally.check("a query in place of a password", made.receive_all(), NO_ANSWER)


@contextlib.contextmanager
def exchanging(port: int) -> Iterator:
    """Connects a client that is asked for its password."""
    with client(port) as made:
        made.send(packet(STARTUP))
        made.receive(len(SASL))
        yield made


def check_denied(tally: Tally, what: str, found: bytes) -> None:
    """Checks that the client is denied access, and gets nothing else."""
    words = b'password authentication failed for user "postgres"'
    expected = messages.frame(b"E", b"SFATAL\0VFATAL\0C28P01\0M" + words + b"\0\0")
    tally.check(what, found, expected)


def make_certificate(folder: pathlib.Path) -> None:
    """Creates a self-signed certificate for 127.0.0.1."""
    subprocess.run(
        ["openssl", "req", "-x509", "-newkey", "rsa:2048", "-nodes", "-days", "2", "-subj", "/CN=127.0.0.1", "-addext",
         "subjectAltName=IP:127.0.0.1", "-keyout", folder / "key", "-out", folder / "certificate"],
        check=True, stderr=subprocess.DEVNULL)


def check_tls(tally: Tally, folder: pathlib.Path, file: pathlib.Path) -> None:
    """Checks that TLS is required and uses the certificate."""
    words = "--certificate", str(folder / "certificate"), "--key", str(folder / "key")
    verified = {"PGSSLMODE": "verify-full", "PGSSLROOTCERT": str(folder / "certificate")}
    with nobody() as port, fronting(port, *words, "--password-file", str(file)) as (_, front_port):
        given = {"PGPASSWORD": PASSWORD}
        tally.check("psql by TLS", psql(front_port, "SHOW TimeZone", **verified, **given), "UTC\n")
        tally.check("psql by TLS where it is offered", psql(front_port, "SHOW TimeZone", **given), "UTC\n")
        found = psql(front_port, "SHOW TimeZone", PGSSLMODE="disable", **given)
        tally.check("psql without TLS", found[-len(PLAIN):], PLAIN)
        found = psql(front_port, "SHOW TimeZone", **verified, PGPASSWORD="no")
        tally.check("psql by TLS with another password", found[-len(DENIED):], DENIED)
        with client(front_port) as made:
            made.send(packet(TLS) + packet(STARTUP))
            tally.check("a startup that is sent before the handshake", made.receive_all(), b"")
        with client(front_port) as made:
            made.send(packet(TLS))
            tally.check("the answer where TLS is asked for", made.receive(1), b"S")
            made.send(packet(STARTUP))
            tally.check("what is no handshake", b"R" in made.receive_all(), False)
    with nobody() as port, fronting(port, *words) as (_, front_port):
        tally.check("psql by TLS without a password", psql(front_port, "SHOW TimeZone", **verified), "UTC\n")
