"""The arguments and inputs of the runs."""

from collections.abc import Iterator
from dataclasses import dataclass

from refused.cases import with_certificates
from refused.scripts import STEPS, catalog_text, script_input
from runs.catalogs import C
from runs.simulations import three_parts
from served.shardings import HALVES_CATALOG

ROWS = f"{HALVES_CATALOG}%%\n(7, 'eu')\n(100, NULL)\n(2147483648, NULL)\n('x', 1)\n(1)\n".encode()


@dataclass(frozen=True)
class Case:
    """Arguments and an input, and the greatest number of bytes that a read returns and that a write accepts."""

    words: tuple[str, ...]
    text: bytes
    read: int = 40
    written: int = 7


def cases() -> Iterator[Case]:
    """Yields all runs except those in which `serve` listens."""
    yield Case(("eval", "t"), ROWS)
    yield Case(("eval", "t", "--insert"), ROWS)
    yield Case(("eval", "u"), ROWS)
    yield Case(("check",), f"{HALVES_CATALOG}%%\n{C}".encode())
    yield Case(("check",), f"{HALVES_CATALOG}%%\no 0\n".encode())
    yield Case(("check",), f"{HALVES_CATALOG}%%\ns 0 o\n".encode())
    yield Case(("check",), f"DROP;{HALVES_CATALOG}%%\n{C}".encode())
    yield Case(("check",), with_certificates(catalog_text()), read=500)
    yield Case(("check", "--show"), f"{HALVES_CATALOG}%%\n{C}".encode())
    yield Case(("show",), HALVES_CATALOG.encode())
    yield Case(("show",), b"DROP;")
    yield Case(("make",), HALVES_CATALOG.encode())
    yield Case(("make",), HALVES_CATALOG.replace("id >= 100", "id > 100").encode())
    yield Case(("make",), b"\xff")
    yield Case(("simulate",), script_input(STEPS), read=500, written=300)
    yield Case(("simulate",), three_parts(HALVES_CATALOG, "o 0\n", "VIEW;").encode())
    yield Case(("serve", "--port", "45432"), three_parts(HALVES_CATALOG, C, "VIEW;").encode())
    yield Case(("serve", "--port", "x"), b"")
    yield Case(("--help",), b"", written=60)
    yield Case(("--version",), b"")
    yield Case(("nope",), b"")
