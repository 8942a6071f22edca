"""The command line of tools/front."""

import argparse
import asyncio
import contextlib
import ipaddress
import logging
import signal
import ssl
import sys
from collections.abc import Sequence

from pgshard_tools.fronting.answers import Answers
from pgshard_tools.fronting.catalog import Catalog
from pgshard_tools.fronting.greeting import Terms
from pgshard_tools.fronting.scram import Password
from pgshard_tools.fronting.server import Front
from pgshard_tools.fronting.session import Backend
from pgshard_tools.fronting.slots import Slots
from pgshard_tools.installation import version
from pgshard_tools.judging import outputs

DESCRIPTION = """\
Turns `pgshard serve` into a server for PostgreSQL's clients, such as subscribers and pg_recvlogical.

It handles a client's startup, answers what clients ask before they start a stream, and then relays the stream from its
own connection to pgshard serve. Subscriptions may have default options: their tables are copied as they are at the
beginning of the log, which is empty, and then catch up. SQL is refused. docs/FEEDING.md is the manual.

Without --password-file it listens only on loopback addresses. None of it is proved.

It prints `listening P` when clients can connect, writes a line to standard error when a connection ends, and runs until
it receives SIGTERM, SIGINT or SIGHUP.

Exit status:
    0   it was ended by a signal
    2   usage error, or a file cannot be read
    4   the port is not available, or the output cannot be written
    5   out of memory, or a module of the front is missing"""

VERSIONS = ["15.18", "13.18"]

ENDED, BAD_COMMAND, NO_PORT, NO_MEMORY = 0, 2, 4, 5

# The signals that end it.
ENDINGS = (signal.SIGTERM, signal.SIGINT, signal.SIGHUP)


def options_of(words: Sequence[str]) -> argparse.Namespace:
    """The options on a command line, or an exit with a usage error."""
    parser = argparse.ArgumentParser(
        prog="pgshard front", description=DESCRIPTION, allow_abbrev=False,
        formatter_class=argparse.RawDescriptionHelpFormatter)
    add = parser.add_argument
    add("--version", action="version", version=f"front (pgshard) {version()}")
    add("--port", type=port, required=True, metavar="P", help="the port for clients; 0 for any free port")
    add("--listen", type=address, default=address("127.0.0.1"), metavar="ADDRESS",
        help="the address for clients [default: %(default)s]; one that other machines can reach needs --password-file")
    add("--backend", type=served_port, required=True, metavar="PORT", help="the port of pgshard serve on 127.0.0.1")
    add("--catalog", type=catalog, metavar="FILE",
        help="the input of pgshard serve, or its first part; CREATE SUBSCRIPTION needs the tables of publications")
    add("--password-file", type=password, dest="password", metavar="FILE",
        help="a file whose first line is the password of all clients (SCRAM-SHA-256)")
    add("--certificate", metavar="FILE", help="a certificate in PEM format; clients must then use TLS")
    add("--key", metavar="FILE", help="the certificate's private key, if it is in another file")
    add("--server-version", choices=VERSIONS, default=VERSIONS[0], dest="told",
        help="what clients see; for 15.18 their starts are rewritten to protocol version 1 [default: %(default)s]")
    add("--start-timeout", type=seconds, default=10, metavar="SECONDS",
        help="how long a client may take for its startup and password [default: %(default)s]")
    add("--backend-timeout", type=seconds, default=10, metavar="SECONDS",
        help="how long pgshard serve may take to answer [default: %(default)s]")
    add("--timeout", type=seconds, default=60, metavar="SECONDS",
        help="how long a client in a stream may send nothing, or read nothing [default: %(default)s]")
    options = parser.parse_args(words)
    check(parser, options)
    return options


def check(parser: argparse.ArgumentParser, options: argparse.Namespace) -> None:
    """Refuses options that cannot be combined, and reads the certificate."""
    if not options.listen.is_loopback and options.password is None:
        parser.error(
            "without --password-file it listens only on loopback addresses, such as 127.0.0.1, "
            f"not on {options.listen}")
    if options.key is not None and options.certificate is None:
        parser.error("--key needs --certificate")
    options.tls = None
    if options.certificate is not None:
        options.tls = ssl.create_default_context(ssl.Purpose.CLIENT_AUTH)
        try:
            options.tls.load_cert_chain(options.certificate, options.key, password=lambda: "")
        except (OSError, ssl.SSLError, ValueError) as fault:
            parser.error(f"cannot use the certificate {options.certificate}: {fault}")


def port(word: str) -> int:
    """A port to listen on."""
    return port_from(0, word)


def served_port(word: str) -> int:
    """The port of a server."""
    return port_from(1, word)


def port_from(least: int, word: str) -> int:
    """A port that is not less than this."""
    if not word.isdecimal() or not least <= int(word) <= 65_535:
        raise argparse.ArgumentTypeError(f"it takes {least} to 65535, not {word}")
    return int(word)


def seconds(word: str) -> float:
    """A time limit."""
    try:
        number = float(word)
    except ValueError:
        number = 0
    if not 0 < number <= 86_400:
        raise argparse.ArgumentTypeError(f"it takes seconds above 0 and up to 86400, not {word}")
    return number


def address(word: str) -> ipaddress.IPv4Address | ipaddress.IPv6Address:
    """An address of this machine."""
    return ipaddress.ip_address(word)


def password(path: str) -> Password:
    """The password in the first line of a file."""
    try:
        with open(path, encoding="ascii") as file:
            word = file.readline().rstrip("\r\n")
    except (OSError, UnicodeDecodeError) as fault:
        raise argparse.ArgumentTypeError(f"cannot read {path}: {fault}") from fault
    if not word or not word.isprintable():
        raise argparse.ArgumentTypeError(f"the first line of {path} is not a password of printable ASCII characters")
    return Password(word)


def catalog(path: str) -> Catalog:
    """The catalog at the beginning of a file, up to a line %%."""
    try:
        with open(path, encoding="utf-8", newline="") as file:
            text = file.read()
    except (OSError, UnicodeDecodeError) as fault:
        raise argparse.ArgumentTypeError(f"cannot read {path}: {fault}") from fault
    try:
        found = Catalog(f"\n{text}".split("\n%%\n")[0])
    except (LookupError, ValueError) as fault:
        raise argparse.ArgumentTypeError(f"{path} is not a catalog that pgshard reads") from fault
    if not found.subscriptions:
        raise argparse.ArgumentTypeError(
            f"{path} has no CREATE SUBSCRIPTION, so it is not the catalog of pgshard serve")
    return found


def main() -> int:
    """Runs the command with the arguments of this process."""
    return run(sys.argv[1:])


def run(words: Sequence[str]) -> int:
    """Runs the command, and returns its exit status."""
    try:
        if sys.stdout is not None:
            outputs.open_output()
        return served(asked(words))
    except outputs.NoOutput as fault:
        outputs.drop_output()
        outputs.tell(f"front: {fault}")
        return NO_PORT
    except MemoryError:
        outputs.tell("front: out of memory")
        return NO_MEMORY


def asked(words: Sequence[str]) -> argparse.Namespace:
    """The options on a command line. Before an exit, the help or the version is written."""
    try:
        return options_of(words)
    except SystemExit:
        if sys.stdout is not None:
            sys.stdout.flush()
        raise


def served(options: argparse.Namespace) -> int:
    """Serves clients, and returns the exit status."""
    logging.basicConfig(stream=sys.stderr, level=logging.INFO, format="%(asctime)s front: %(message)s")
    logging.getLogger("asyncio").setLevel(logging.CRITICAL)
    # If nobody reads the log any more, the front continues.
    logging.raiseExceptions = False
    try:
        return asyncio.run(serve(options))
    except OSError as fault:
        outputs.tell(f"front: cannot listen on port {options.port} of {options.listen}: {fault.strerror}")
        return NO_PORT


async def serve(options: argparse.Namespace) -> int:
    """Serves clients until a signal ends it."""
    slots = Slots(options.catalog.subscriptions if options.catalog is not None else None)
    front = Front(
        Answers(options.told, options.catalog, slots),
        Backend(options.backend, options.backend_timeout, options.timeout),
        Terms(options.password, options.tls, options.start_timeout))
    serving = asyncio.ensure_future(front.listen(str(options.listen), options.port, tell))
    for ending in ENDINGS:
        asyncio.get_running_loop().add_signal_handler(ending, serving.cancel)
    with contextlib.suppress(asyncio.CancelledError):
        await serving
    return ENDED


def tell(port: int) -> None:
    """Prints that clients can connect."""
    print(f"listening {port}", flush=True)
