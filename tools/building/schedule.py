"""Builds libraries concurrently."""

import shutil
import sys
import tempfile
import time
from concurrent.futures import FIRST_COMPLETED, ThreadPoolExecutor, wait


def say(text):
    # One write, since several threads print at the same time.
    sys.stderr.write(f"pgshard: {text}\n")
    sys.stderr.flush()


# How much longer a line of code takes to prove than a line of a definition or a proof, measured on whole builds.
CODE = 15

# Begins the command of a check while others depend on another check. It uses the processors that the other one leaves
# idle.
WAITS = ["nice", "-n", "10"]


def work_behind(repository, names):
    """Returns for each library the work of proving it and all that wait for it, along the longest chain, in lines of
    proofs."""
    behind = {}
    for name in reversed(names):
        above = [it for it in names if name in repository.uses[it]]
        behind[name] = work_of(repository.folder(name)) + max((behind[it] for it in above), default=0)
    return behind


def work_of(folder):
    return CODE * lines_of(folder, "*.rt") + lines_of(folder, "*.antt")


def lines_of(folder, kind):
    files = [it for it in folder.rglob(kind) if "out" not in it.parts]
    return sum(it.read_bytes().count(b"\n") for it in files)


def how_to_prove(behind, name, beside, lanes):
    """Returns the words that begin the command for a library, and how many processes share the work.

    The library that the most work waits for has as many processes as there may be checks, and others give way to it.
    These have more than one process too, so that none ends up alone on one processor.
    """
    if all(behind[name] >= behind[it] for it in beside):
        return [], lanes
    return WAITS, max(1, lanes // 2)


def build_all(repository, names, lanes):
    """Builds each library after those that it uses, this many at a time. Returns the status 1 if one is not proved."""
    clear(repository, names)
    behind, built, running = work_behind(repository, names), set(), {}
    left = sorted(names, key=lambda it: -behind[it])
    with ThreadPoolExecutor(lanes) as pool:
        while left or running:
            ready = [it for it in left if built.issuperset(repository.below(it))]
            for place, name in enumerate(ready[: lanes - len(running)]):
                left.remove(name)
                beside = [*running.values(), *ready[place + 1 :]]
                how = how_to_prove(behind, name, beside, lanes)
                running[pool.submit(timed, repository, name, *how)] = name
            done, _ = wait(running, return_when=FIRST_COMPLETED)
            for it in done:
                name, (log, seconds) = running.pop(it), it.result()
                if log is not None:
                    say(f"{name} is not proved:\n{log}")
                    return 1
                built.add(name)
                if seconds >= 1:
                    say(f"{name} is proved, after {seconds:.0f} s; libraries left: {len(names) - len(built)}")
    return 0


def copies_in(repository):
    """Returns the folder of the copies. It is on the file system of the built libraries, so that files need not be
    copied."""
    folder = repository.folder("publisher_main") / "out"
    folder.mkdir(exist_ok=True)
    return folder


def clear(repository, names):
    """Removes copies that were left by a run that was killed."""
    for name in names:
        for place in copies_in(repository).glob(f"{name}-*"):
            shutil.rmtree(place)


def timed(repository, name, before, jobs):
    say(f"proving {name}")
    begun = time.monotonic()
    with tempfile.TemporaryDirectory(prefix=f"{name}-", dir=copies_in(repository)) as place:
        log = repository.prove(name, place, before, jobs)
    return log, time.monotonic() - begun
