"""A case: runs of the program with the expected answers, and the features of the case that are counted."""

from collections import Counter
from collections.abc import Callable, Iterator
from dataclasses import dataclass, field

from .running import Answer

# Runs the program with these arguments and this input.
Runner = Callable[[tuple[str, ...], bytes], Answer]


@dataclass
class Case:
    """One run, and the whole answer according to the model."""

    words: tuple[str, ...]
    text: bytes
    status: int
    output: str
    met: Counter[str] = field(default_factory=Counter)

    def check(self, run: Runner) -> Iterator[str]:
        """Makes the run, and yields what is wrong."""
        answer = run(self.words, self.text)
        if answer.status != self.status:
            yield f"status {answer.status}, and not {self.status}"
        yield from differences(answer.output, self.output)

    def lines(self) -> int:
        """Returns how many lines are compared."""
        return self.output.count("\n")


def differences(found: str, expected: str) -> Iterator[str]:
    """Yields the first line that differs, if there is one."""
    if found == expected:
        return
    theirs, ours = found.split("\n"), expected.split("\n")
    for number, (one, other) in enumerate(zip(theirs, ours), 1):
        if one != other:
            yield f"line {number} is {shown(one)}, and not {shown(other)}"
            return
    yield f"there are {len(theirs)} lines, and not {len(ours)}"


def shown(line: str) -> str:
    """Returns a line, shortened if it is long."""
    return repr(line) if len(line) <= 300 else f"{line[:300]!r} and {len(line) - 300} characters more"


def parts(*texts: str) -> bytes:
    """Returns an input of parts, each of which is empty or ends with a newline."""
    return "%%\n".join(texts).encode()
