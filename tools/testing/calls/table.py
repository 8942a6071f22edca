"""Calls with their answers, and tables of them.

A table is a text file. Each line begins with one of these:

    > CALL       a call
    < ANSWER     its expected answer
    <! ANSWER    its expected answer if that is a fault of the call's line: `error: ..` or `no such call: ..`
    = NAME TEXT  replaces {NAME} by the text in the lines that follow
    # TEXT       a comment

The line `new` clears the desk, as does the start of each table. {9*ab} means ab repeated nine times, in calls and in
answers.
"""

import pathlib
import re
from collections.abc import Iterator
from dataclasses import dataclass

FAULT = re.compile("error: |no such call: ")
NAMED = re.compile(r"\{(\w+)\}")
REPEATED = re.compile(r"\{(\d+)\*([^{}]+)\}")


@dataclass(frozen=True)
class Call:
    """A call as the driver reads it, and its answer as the driver prints it."""

    line: str
    answer: str


# Clears the desk.
NEW = Call("new", "")


def expanded(text: str, names: dict[str, str]) -> str:
    """Replaces names and repetitions by what they mean."""
    text = NAMED.sub(lambda found: names[found[1]], text)
    return REPEATED.sub(lambda found: int(found[1]) * found[2], text)


def calls_of(path: pathlib.Path) -> Iterator[Call]:
    """Yields the calls of a table. It is an error if a line has no such beginning, or if an answer is a fault and is
    not marked as one."""
    names: dict[str, str] = {}
    asked: str | None = None
    for number, line in enumerate(path.read_text(encoding="utf-8").split("\n"), 1):
        mark, _, rest = line.partition(" ")
        if mark == ">" and asked is None:
            asked = expanded(rest, names)
        elif mark in ("<", "<!") and asked is not None:
            answer = expanded(rest, names)
            if bool(FAULT.match(answer)) != (mark == "<!"):
                raise ValueError(f"{path.name}:{number}: a fault begins with `<!`, and nothing else does")
            yield Call(asked, answer)
            asked = None
        elif mark == "=" and asked is None:
            name, _, text = rest.partition(" ")
            names[name] = expanded(text, names)
        elif line == "new" and asked is None:
            yield NEW
        elif asked is not None or (line and mark != "#"):
            raise ValueError(f"{path.name}:{number}: this is no line of a table")
    if asked is not None:
        raise ValueError(f"{path.name}: the last call has no answer")
