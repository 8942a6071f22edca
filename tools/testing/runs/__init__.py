"""Runs of pgshard on texts that are written down or generated here, with the expected answers. They need no server.

Each file has a topic, and its function `cases` yields the topic's runs.
"""

import hashlib

import read_back
from programs import pgshard
from tally import Tally

from . import (
    certificates,
    checks,
    command_lines,
    evals,
    families,
    filters,
    forms,
    inputs,
    inserts,
    limits,
    loads,
    long,
    losses,
    makes,
    memory,
    most,
    peaks,
    rows,
    serves,
    shows,
    simulations,
)
from .case import SECONDS, Case

# The commands that read a catalog first.
READERS = {"show", "make", "check", "eval", "simulate", "serve", "publish"}

TOPICS = [
    checks, certificates, shows, forms, makes, families, simulations, losses, serves, loads, rows, inserts, filters,
    inputs, command_lines, limits, evals, most, long, peaks, memory]


def check_runs(tally: Tally) -> None:
    """Makes all runs, and shows each catalog that is read and then its text."""
    # Whether each catalog is read, by its digest.
    known: dict[bytes, bool] = {}
    runs = 0
    for topic in TOPICS:
        for case in topic.cases():
            case.check(tally)
            catalog = catalog_of(case)
            digest = hashlib.sha256(catalog).digest()
            if catalog and digest not in known:
                fault = read_back.fault_of(show, catalog)
                known[digest] = fault is not None
                if fault is not None:
                    tally.check(f"the catalog of {case.name}, as it is shown", fault, "")
            runs += known.get(digest, False)
    print(f"runs whose catalog was shown, and its text shown again: {runs:,}, with {sum(known.values()):,} catalogs")


def catalog_of(case: object) -> bytes:
    """Returns the catalog of a run, which is an attribute of it or the first part of its input, or nothing."""
    if isinstance(case, Case) and case.words[:1] not in [(it,) for it in READERS]:
        return b""
    text = getattr(getattr(case, "sharding", case), "catalog", None) or getattr(case, "text", "")
    return read_back.first_part(text if isinstance(text, bytes) else text.encode())


def show(text: bytes) -> tuple[int | None, str]:
    """Makes a run of `show`."""
    return pgshard("show", text=text, seconds=SECONDS)
