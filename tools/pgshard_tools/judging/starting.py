"""Starts judge. This module imports little, so that it can report that the others cannot be loaded."""

import sys

from pgshard_tools.judging.faults import NO_PROGRAM

# The status of a Nagios plugin that has no answer.
UNKNOWN = 3


def main(script: str | None = None) -> int:
    """Runs judge with the arguments of this process, and returns its exit status. A script is run by a Python that has
    pglast."""
    try:
        if script is not None:
            from pgshard_tools.judging.pythons import go_where_pglast_is
            go_where_pglast_is(script, sys.argv[1:])
        from pgshard_tools.judging.command import main as judge
    except Exception as fault:
        return not_loaded(fault)
    return judge()


def not_loaded(fault: Exception) -> int:
    """Reports that memory is refused, or that a module is missing."""
    words = "out of memory" if isinstance(fault, MemoryError) else f"a module of judge cannot be loaded: {fault}"
    is_plugin = "--nagios" in sys.argv[1:]
    try:
        if is_plugin:
            print(f"PGSHARD UNKNOWN - {words}", flush=True)
        else:
            print(f"judge: {words}", file=sys.stderr, flush=True)
    except OSError:
        pass
    return UNKNOWN if is_plugin else NO_PROGRAM
