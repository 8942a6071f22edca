"""Runs of `publish` in which a read or a write fails."""

import errno
from collections import Counter

from runs.catalogs import C
from served.program import NO_PORT, PORTS, free_port
from served.shardings import HALVES_CATALOG
from tally import Tally

from .running import MOST_CALLS, READS, WRITES, Answer, Failure, run

# Lines, each with its answer.
TALK = [
    ("COMMIT INSERT t (7, 'eu');", "commit 1"),
    ("COMMIT INSERT t (7, 'eu');", "refused At 1 DuplicateKey"),
    ("COMMIT;", "refused EmptyTransaction"),
    ("nope", "script 0 Expected"),
    ("COMMIT INSERT t (150, 'us');", "commit 2"),
]
HEAD = f"{HALVES_CATALOG}%%\n{C}%%\n"
TEXT = "\n".join([HEAD.removesuffix("\n"), *(line for line, _ in TALK), ""]).encode()

# The greatest number of bytes that a read returns and that a write accepts.
MOST = {READS: 40, WRITES: 7}


def check_publishes(tally: Tally, library: str) -> Counter[int]:
    """Makes runs in which each read and each write fails in turn."""
    met: Counter[int] = Counter()
    for file, error in (READS, errno.EIO), (READS, errno.EINTR), (WRITES, errno.EPIPE), (WRITES, errno.EINTR):
        faults = []
        for call in range(1, MOST_CALLS):
            failure = Failure(file, call, error, error == errno.EPIPE, MOST[file])
            port, found, has_failed = publish(failure, library)
            met[file] += bool(has_failed)
            if has_failed is None or not is_right(failure, port, found, has_failed):
                faults.append(f"{failure} publish: {found}")
            if not has_failed:
                break
        tally.check(f"publish where file {file} fails by {error}", faults, [])
    return met


def answer_to(given: bytes, port: int) -> Answer:
    """Returns the answer of a run whose input ends after these bytes, or cannot be read any further."""
    lines = given.split(b"\n")[:-1]
    if lines.count(b"%%") < 2:
        return Answer(3, "input\n")
    answers = [answer for _, answer in TALK[:len(lines) - HEAD.count("\n")]]
    commits = sum(answer.startswith("commit") for answer in answers)
    return Answer(0, "".join(f"{line}\n" for line in [f"listening {port}", *answers, f"closed {commits} 0"]))


def is_right(failure: Failure, port: int, found: Answer, has_failed: bool) -> bool:
    """Returns whether a run is right. A failed read ends the input."""
    whole = answer_to(TEXT, port)
    if not has_failed or failure.error == errno.EINTR:
        return found == whole
    if failure.file == READS:
        return found == answer_to(TEXT[:failure.most * (failure.call - 1)], port)
    return found.status == NO_PORT and whole.output.startswith(found.output) and found.output != whole.output


def publish(failure: Failure, library: str) -> tuple[int, Answer, bool | None]:
    """Makes a run. Returns its port, its answer and whether the call failed. Tries another port if the first one is
    taken."""
    for _ in range(PORTS):
        port = free_port()
        found, has_failed = run(("publish", "--port", str(port)), TEXT, failure.variables(library))
        if has_failed or found != Answer(NO_PORT, ""):
            break
    return port, found, has_failed
