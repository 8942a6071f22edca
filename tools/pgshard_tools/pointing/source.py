"""An input of pgshard: its parts, and the line and the column of a position."""

import os
import re
from dataclasses import dataclass

from pgshard_tools.judging.catalog_tokens import TOKEN


@dataclass(frozen=True)
class Part:
    """A part of an input, and the byte of the input at which it begins."""

    data: bytes
    begin: int

    @property
    def text(self) -> str:
        return self.data.decode("utf-8", "surrogateescape")


@dataclass(frozen=True)
class Source:
    """An input, with its name, or the names of the files that are its parts."""

    name: str
    data: bytes
    files: tuple[str, ...] = ()

    def parts(self) -> list[Part]:
        """The texts between the lines that are exactly `%%`."""
        found, begin = [], 0
        for line in re.finditer(rb"(?m)^%%(?:\n|\Z)", self.data):
            found.append(Part(self.data[begin:line.start()], begin))
            begin = line.end()
        return [*found, Part(self.data[begin:], begin)]

    def at(self, place: int) -> str:
        """Returns the file, the line and the column of a position in bytes. Columns are counted in characters, from
        1."""
        name, begin = self.file_at(place)
        before = self.data[begin:place]
        begin = before.rfind(b"\n") + 1
        column = len(before[begin:].decode("utf-8", "replace")) + 1
        return f"{name}:{before.count(10) + 1}:{column}"

    def file_at(self, place: int) -> tuple[str, int]:
        """Returns the name of the file that contains a place, and where the file begins. If there are more parts than
        files, it is not known which file has which parts."""
        parts = self.parts()
        if len(self.files) != len(parts):
            return self.name, 0
        return next((name, part.begin) for name, part in reversed([*zip(self.files, parts)]) if part.begin <= place)

    def there(self, place: int) -> str:
        """Returns the token at a place, for a sentence."""
        rest = self.data[place:place + 4096].decode("utf-8", "replace")
        token = TOKEN.match(rest)
        if token is None or not token[0].strip():
            return "the end of the text" if not rest.strip() else "white space"
        word = " ".join(token[0].split())
        return word if len(word) <= 40 else f"{word[:40]}.."


def name_of_input() -> str:
    """Returns the name of the file that is the standard input, or `input`."""
    try:
        path = os.readlink("/proc/self/fd/0")
    except OSError:
        return "input"
    if not os.path.isfile(path):
        return "input"
    near = os.path.relpath(path)
    return path if near.startswith("..") else near


def files_of_input() -> tuple[str, ...]:
    """Returns the files that the script pgshard has joined as the standard input."""
    named = os.environ.get("PGSHARD_PARTS")
    return tuple("input" if name == "-" else name for name in named.split("\n")) if named else ()
