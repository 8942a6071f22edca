"""Feeds a subscriber streams in which each byte is changed in turn, and compares its answers with the model.

The program `refused_calls` reads a stream from standard input. For each byte and each other value of it, the program
prints the answer to the changed stream, and then the answer to the unchanged stream, fed in one piece on a new
connection.
"""

import re
import subprocess
from collections import Counter
from collections.abc import Iterator

from model.subscribers import State, feed
from model.values import written_row
from refusals import SECONDS, program
from served.messages import frames_of
from tally import Tally

from .streams import OID, STREAMS

# Faults that the changes have to cause, by name.
MET = {
    "Ok", "Err Frame BadLength", "Err Frame FrameTooLong", "Err Msg Unknown", "Err Msg Short", "Err Msg Trailing",
    "Err Msg BadText", "Err Msg BadCount", "Err Msg Toast", "Err OutOfPlace", "Err NoRelation", "Err BadValue",
    "Err DuplicateKey", "Err Refused"}


def check_changed_streams(tally: Tally) -> None:
    """Feeds all streams."""
    met: Counter[str] = Counter()
    for name, stream in STREAMS.items():
        fed = Changes(stream)
        tally.check(f"{name} with each byte changed", first_difference(fed, output_of(stream)), None)
        met += fed.met
    tally.check("what streams with a byte changed meet", set(met), MET)
    told = ", ".join(f"{count:,} {answer}" for answer, count in met.most_common())
    print(f"streams with a byte changed: {255 * sum(map(len, STREAMS.values())):,}, which met {told}")


def output_of(stream: bytes) -> bytes:
    """Returns what the program prints."""
    return subprocess.run([program()], input=stream, stdout=subprocess.PIPE, timeout=SECONDS).stdout


class Changes:
    """A stream whose bytes are changed in turn, and the faults that this has caused."""

    def __init__(self, stream: bytes) -> None:
        self.stream = stream
        self.met: Counter[str] = Counter()
        self.again: dict[State, str] = {}

    def answers(self) -> Iterator[str]:
        """Yields what the program has to print for each change."""
        begin, state = 0, State().opened()
        for frame in frames_of(self.stream)[0]:
            for place in range(begin, begin + len(frame)):
                yield from self.answers_at(begin, state, place)
            state = feed(state, frame)[2]
            begin += len(frame)

    def answers_at(self, begin: int, state: State, place: int) -> Iterator[str]:
        """Yields the same for the byte at a place, given the start of its frame and the state there."""
        for value in range(256):
            changed = self.stream[:place] + bytes([value]) + self.stream[place + 1:]
            if changed == self.stream:
                continue
            fed, told, after = feed(state, changed, begin)
            self.met[" ".join(re.findall("[A-Z][A-Za-z]+", told))] += 1
            if after not in self.again:
                _, *answered = feed(after.opened(), self.stream)
                self.again[after] = lines(len(self.stream), *answered)
            yield f"{place} {value}\n{lines(fed, told, after)}{self.again[after]}"


def lines(fed: int, told: str, state: State) -> str:
    """Returns what the program has to print of a connection after it has ended."""
    following = "Ok(())" if state.is_open else "Err(Closed)"
    rows = "".join(f"{written_row(row)}\n" for row in state.rows(OID))
    return f"{fed} {told} {following} {state.position} {str(state.is_asked).lower()}\n{rows}"


def first_difference(changes: Changes, output: bytes) -> str | None:
    """Returns the first change for which the answer differs from the model's."""
    at = 0
    for answer in changes.answers():
        expected = answer.encode()
        if not output.startswith(expected, at):
            return f"{output[at:at + len(expected) + 40]!r} and not {expected!r}"
        at += len(expected)
    return None if at == len(output) else f"and then {output[at:at + 80]!r}"
