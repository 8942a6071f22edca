"""Makes the runs, and reports what is wrong with them."""

import pathlib
import tempfile
from collections import Counter

from random_cases.running import compiled, program
from tally import Tally

from .cases import Case, cases
from .publishes import Publishing
from .publishes import fault_of as fault_of_publish
from .publishes import is_whole, refused_publishes
from .publishes import refused_threads as threads_of_publish
from .running import NO_MEMORY, Answer, Refusal, refused_runs, run
from .serves import LONG_IDLE_SECONDS, SHOP, Serving, refused_serves, refused_threads

# The statuses of a run that does not give up, as when nothing is refused.
ENDED_STATUSES = (0, 1, 2, 3)

# The number of failing runs of a case that are shown in detail.
MOST_SHOWN = 3


def check_refused_runs(tally: Tally) -> None:
    """Makes all runs, if there is a C compiler."""
    if not pathlib.Path(program()).exists():
        return tally.check("the program that is refused memory", f"{program()} is not there", "it is built")
    with tempfile.TemporaryDirectory() as folder:
        library = compiled(folder, "refusing")
        if library is None:
            print("skipped: runs without memory, since no C compiler is installed")
        else:
            check_all(tally, library)


def check_all(tally: Tally, library: str) -> None:
    """Makes all runs with the library that refuses requests."""
    met: Counter[str] = Counter()
    for case in cases():
        met += check_case(tally, case, library)
    serving = Serving(SHOP, library)
    met += check_serving(tally, serving)
    check_threads(tally, serving)
    met += check_publishing(tally, Publishing(library))
    tally.check("whether any request was refused in runs without memory", met["refused"] > 0, True)
    print(
        f"runs without memory: {met['runs']:,}, with {met['refused']:,} requests refused; {met['ended']:,} ended, "
        f"{met['other']:,} went on with other lines, and {met['same']:,} as if nothing was refused")


def check_case(tally: Tally, case: Case, library: str) -> Counter[str]:
    """Makes a run without refusals, and the runs with them. Returns how they ended."""
    plain = run(case.words, case.text, Refusal(0, False).variables(library))
    tally.check(f"{case.name}: a plain run", (plain.refused, case.fault(plain, plain)), (0, None))
    tally.check(f"{case.name}: the status of a plain run", plain.status in ENDED_STATUSES, True)
    met: Counter[str] = Counter()
    faults = []
    for refusal, found in refused_runs(case.words, case.text, library):
        fault = fault_of(case, plain, found)
        if fault is not None:
            faults.append(f"{refusal} {' '.join(case.words)}: {fault}")
        meet(met, plain, found)
    tally.check(f"{case.name}: with requests for memory refused", faults[:MOST_SHOWN], [])
    return met


def fault_of(case: Case, plain: Answer, found: Answer) -> str | None:
    """Returns what is wrong with a run."""
    if found.refused is None:
        return f"status {found.status}, and no count of what was refused"
    if found.refused == 0:
        return None if found == plain else f"another answer without a refusal: {found}"
    return case.fault(plain, found)


def check_serving(tally: Tally, serving: Serving) -> Counter[str]:
    """Does the same for `serve`. A client may leave before it has everything, even if nothing was refused."""
    plain = serving.run(Refusal(0, False), LONG_IDLE_SECONDS)
    tally.check("serve: a plain run", (serving.fault(plain), serving.is_whole(plain)), (None, True))
    met: Counter[str] = Counter()
    faults = []
    for refusal, found in refused_serves(serving):
        fault = serving.fault(found)
        if fault is not None:
            faults.append(f"{refusal} serve: {fault}")
        meet(met, plain.answer, found.answer)
    tally.check("serve: with requests for memory refused", faults[:MOST_SHOWN], [])
    return met


def check_threads(tally: Tally, serving: Serving) -> None:
    """Runs `serve` with refused threads: unless it reports that memory ran out, each client gets everything."""
    faults = []
    for refusal, found in refused_threads(serving):
        fault = serving.fault(found)
        if fault is None and found.answer.status == 0 and not serving.is_whole(found):
            fault = "status 0, and a client did not get all"
        if fault is not None:
            faults.append(f"{refusal} serve: {fault}")
    tally.check("serve: with threads refused", faults[:MOST_SHOWN], [])


def check_publishing(tally: Tally, publishing: Publishing) -> Counter[str]:
    """Does the same for `publish`: a client may be ended for lack of memory, and a commit may be refused."""
    plain = publishing.run(Refusal(0, False), LONG_IDLE_SECONDS)
    tally.check("publish: a plain run", (fault_of_publish(plain), is_whole(plain)), (None, True))
    met: Counter[str] = Counter()
    for what, runs in ("requests for memory", refused_publishes), ("threads", threads_of_publish):
        faults = []
        for refusal, found in runs(publishing):
            fault = fault_of_publish(found)
            if fault is not None:
                faults.append(f"{refusal} publish: {fault}")
            meet(met, plain.answer, found.answer)
        tally.check(f"publish: with {what} refused", faults[:MOST_SHOWN], [])
    return met


def meet(met: Counter[str], plain: Answer, found: Answer) -> None:
    """Counts a run, and how it ended if something was refused."""
    met["runs"] += 1
    met["refused"] += found.refused or 0
    if found.refused:
        same = (found.status, found.output) == (plain.status, plain.output)
        met["ended" if found.status == NO_MEMORY else "same" if same else "other"] += 1
