"""A client's first packets, up to its password: what it requests, and whether it is admitted."""

import secrets
import ssl
import struct
from dataclasses import dataclass

from pgshard_tools.fronting import frames
from pgshard_tools.fronting.frames import PASSWORD
from pgshard_tools.fronting.peer import Peer
from pgshard_tools.fronting.scram import MECHANISM, Exchange, NotAuthentic, Password

CANCEL, TLS, GSS = (struct.pack("!I", number) for number in (80877102, 80877103, 80877104))
VERSION_3 = 3 << 16

# Texts are sent unchanged, in UTF-8.
ENCODINGS = {"", "UTF8", "UNICODE", "SQLASCII"}

OK, SASL, SASL_CONTINUE, SASL_FINAL = 0, 10, 11, 12


class Denied(Exception):
    """An error that ends the connection, and is sent to the client."""

    def __init__(self, code: str, words: str) -> None:
        super().__init__(words)
        self.response = frames.error(code, words, severity="FATAL")


@dataclass(frozen=True)
class Terms:
    """The terms on which clients are admitted: a password and TLS, if these are required, and the time limit."""

    password: Password | None
    tls: ssl.SSLContext | None
    seconds: float


@dataclass(frozen=True)
class Guest:
    """What a client has said about itself."""

    user: str
    database: str
    application: str
    wants_options: bool


async def greet(client: Peer, terms: Terms) -> Guest | None:
    """Reads a client's startup packet and its password. Returns None if it only requested to cancel a query."""
    packet = await first_packet(client, terms)
    if packet[:4] == CANCEL:
        return None
    version = int.from_bytes(packet[:4], "big")
    if version >> 16 != VERSION_3 >> 16:
        raise Denied("0A000", "pgshard front supports only protocol version 3.0")
    words = packet[4:].decode(errors="replace").split("\0")
    given = dict(zip(words[::2], words[1::2]))
    encoding = given.get("client_encoding", "").replace("-", "").replace("_", "").upper()
    if encoding not in ENCODINGS:
        raise Denied("22023", f"the only supported encoding is UTF8, not {given['client_encoding']}")
    user = given.get("user", "")
    if terms.password is not None:
        await authenticate(client, terms.password, user)
    return Guest(user, given.get("database") or user, given.get("application_name", ""), version != VERSION_3)


async def first_packet(client: Peer, terms: Terms) -> bytes:
    """Returns the packet after those that request encryption, each of which may occur once."""
    asked = {TLS, GSS}
    is_secure = False
    while (packet := await client.startup_body()) in asked:
        asked.discard(packet)
        if packet == TLS and terms.tls is not None:
            await client.secure(terms.tls, terms.seconds)
            is_secure, asked = True, set()
        else:
            await client.send(b"N")
    if terms.tls is not None and not is_secure and packet[:4] != CANCEL:
        raise Denied("28000", "pgshard front accepts only TLS connections; use sslmode=require")
    return packet


async def authenticate(client: Peer, password: Password, user: str) -> None:
    """Asks for the password."""
    exchange = Exchange(password)
    try:
        await client.send(frames.authentication(SASL, frames.text(MECHANISM) + b"\0"))
        mechanism, _, rest = (await password_body(client)).partition(b"\0")
        if mechanism != MECHANISM.encode() or len(rest) < 4:
            raise NotAuthentic("another mechanism")
        await client.send(frames.authentication(SASL_CONTINUE, exchange.first_answer(rest[4:])))
        answer = exchange.last_answer(await password_body(client))
    except NotAuthentic:
        raise Denied("28P01", f'password authentication failed for user "{user}"') from None
    await client.send(frames.authentication(SASL_FINAL, answer))


async def password_body(client: Peer) -> bytes:
    """Returns the client's message about its password."""
    kind, body = await client.frame()
    if kind != PASSWORD:
        raise Denied("08P01", "expected a password message")
    return body


def welcome(guest: Guest, settings: dict[str, str], number: int) -> bytes:
    """Returns what a client is sent when it is admitted."""
    told = settings | {"session_authorization": guest.user, "application_name": guest.application}
    return b"".join([
        frames.frame(b"v", struct.pack("!II", 0, 0)) if guest.wants_options else b"",
        frames.authentication(OK),
        *(frames.parameter(*it) for it in told.items()),
        frames.frame(b"K", struct.pack("!I", number) + secrets.token_bytes(4)),
        frames.ready()])
