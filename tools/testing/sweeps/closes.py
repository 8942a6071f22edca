"""Runs `serve` with logs of 0 to 100 commits, which are replayed at `close`."""

import os
from concurrent.futures import ThreadPoolExecutor

from served.program import NotStarted, serving, use_up

CATALOG = """\
CREATE TABLE t (id integer PRIMARY KEY);
CREATE PUBLICATION p FOR TABLE t;
CREATE SUBSCRIPTION s CONNECTION 'host=here' PUBLICATION p;
"""
MOST_COMMITS = 100


def ended(commits: int) -> tuple[int, str]:
    """Returns a number of commits, and what `serve` prints about its log after a connection that requests nothing."""
    script = "".join(f"COMMIT INSERT t ({key});\n" for key in range(commits))
    try:
        with serving(f"{CATALOG}%%\no 0\n%%\n{script}", "--connections", "1") as (program, port):
            use_up(program, port)
            status, lines = program.end()
    except NotStarted as fault:
        return commits, str(fault)
    return commits, f"{status} {''.join(lines)}"


def wrong_closes() -> list[tuple[int, str]]:
    """Returns the numbers of commits for which `serve` prints something else, with what it prints."""
    with ThreadPoolExecutor(len(os.sched_getaffinity(0))) as threads:
        found = list(threads.map(ended, range(MOST_COMMITS + 1)))
    return [(commits, said) for commits, said in found if said != f"0 closed {commits} 1\n"]
