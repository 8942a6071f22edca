"""Authentication by a password that is never sent: SCRAM-SHA-256, by RFC 5802 and RFC 7677 ("55.3. SASL
Authentication"), without channel binding."""

import base64
import binascii
import hashlib
import hmac
import secrets

MECHANISM = "SCRAM-SHA-256"
ITERATIONS = 4096

# The client's channel binding flag: it does not support channel binding, or it does but believes that the server does
# not.
HEADERS = ("n", "y")


class NotAuthentic(Exception):
    """The client does not know the password, or violates the protocol."""


class Password:
    """What a server stores of a password."""

    def __init__(self, password: str) -> None:
        self.salt = secrets.token_bytes(16)
        salted = hashlib.pbkdf2_hmac("sha256", password.encode("ascii"), self.salt, ITERATIONS)
        self.stored_key = hashlib.sha256(signed(salted, b"Client Key")).digest()
        self.server_key = signed(salted, b"Server Key")


class Exchange:
    """One client's authentication."""

    def __init__(self, password: Password) -> None:
        self.password = password
        self.header = ""
        self.nonce = ""
        self.before = ""

    def first_answer(self, message: bytes) -> bytes:
        """The server's first message, after the client's."""
        flag, name, bare = split(text_of(message), 3)
        if flag not in HEADERS or name:
            raise NotAuthentic("channel binding and authorization identities are not supported")
        self.header = f"{flag},,"
        client_nonce = attribute(split(bare, 2)[1].split(",")[0], "r")
        self.nonce = client_nonce + secrets.token_urlsafe(18)
        salt = base64.b64encode(self.password.salt).decode()
        answer = f"r={self.nonce},s={salt},i={ITERATIONS}"
        self.before = f"{bare},{answer}"
        return answer.encode()

    def last_answer(self, message: bytes) -> bytes:
        """The server's last message, if the client's last message proves that it knows the password."""
        text = text_of(message)
        without_proof, _, proof = text.rpartition(",")
        binding, nonce = split(without_proof, 2)
        header = base64.b64encode(self.header.encode()).decode()
        if attribute(binding, "c") != header or attribute(nonce.split(",")[0], "r") != self.nonce:
            raise NotAuthentic("the message does not follow the first one")
        told = f"{self.before},{without_proof}".encode("latin-1")
        signature = signed(self.password.stored_key, told)
        key = bytes(one ^ other for one, other in zip(decoded(attribute(proof, "p")), signature, strict=True))
        if not hmac.compare_digest(hashlib.sha256(key).digest(), self.password.stored_key):
            raise NotAuthentic("the password is wrong")
        return b"v=" + base64.b64encode(signed(self.password.server_key, told))


def signed(key: bytes, message: bytes) -> bytes:
    """The HMAC of a message."""
    return hmac.new(key, message, hashlib.sha256).digest()


def text_of(message: bytes) -> str:
    """Returns the text of a message. A user name may contain any bytes, and is ignored."""
    return message.decode("latin-1")


def split(text: str, count: int) -> list[str]:
    """This many parts, separated by commas; the last one may contain further commas."""
    parts = text.split(",", count - 1)
    if len(parts) != count:
        raise NotAuthentic("a SCRAM message lacks a part")
    return parts


def attribute(part: str, letter: str) -> str:
    """An attribute's value."""
    if not part.startswith(f"{letter}=") or len(part) < 3:
        raise NotAuthentic(f"a SCRAM message lacks {letter}=")
    return part[2:]


def decoded(value: str) -> bytes:
    """The bytes of a proof."""
    try:
        proof = base64.b64decode(value, validate=True)
    except (binascii.Error, ValueError):
        raise NotAuthentic("a SCRAM proof is not valid base64") from None
    if len(proof) != 32:
        raise NotAuthentic("a SCRAM proof has the wrong length")
    return proof
