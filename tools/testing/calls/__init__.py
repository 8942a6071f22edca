"""Calls with their answers: a table for each topic, and modules for calls that are generated, for example at the limits
of inputs."""

import pathlib
from collections.abc import Iterator

from . import (
    book_limits,
    catalog_limits,
    connection_limits,
    frame_limits,
    memos,
    message_limits,
    orders,
    pieces,
    reading_limits,
    sharding_limits,
)
from .table import Call, calls_of

FOLDER = pathlib.Path(__file__).resolve().parent

MODULES = [
    book_limits, catalog_limits, connection_limits, frame_limits, memos, message_limits, orders, pieces, reading_limits,
    sharding_limits]


def topics() -> Iterator[tuple[str, Iterator[Call]]]:
    """Yields each topic with its calls."""
    for path in sorted(FOLDER.glob("*.calls")):
        yield path.stem, calls_of(path)
    for module in MODULES:
        yield module.__name__.rpartition(".")[2], module.calls()
