"""Random names, as they are stored and as they are written."""

import random
import re

# Names that need quotes, and some that do not.
SPECIAL = [
    "Orders", "two words", 'quo"te', "it's", "dot.ted", "comma,s", "tab\there", "é漢😀", "select", "table", "%%", "%",
    "--", "/* */", "\x01\x1b\x7f", "new\nline", " ", '"', "'", "n" * 63, "é" * 31, "'" * 63, '"' * 63, "NULL", "9",
]
PLAIN = ["t", "u", "orders", "items", "region", "code", "id", "flag", "note", "amount", "a", "b", "c$", "_d", "x1"]

# Names of this form may be written without quotes, except these keywords.
BARE = re.compile("[a-z_][a-z0-9_$]*", re.A)
WORDS = {"select", "table", "null", "true", "false"}


class Names:
    """Returns names, each only once."""

    def __init__(self, chance: random.Random, special: float, lines: bool = True) -> None:
        self.chance = chance
        self.special = special
        self.lines = lines
        self.given: set[str] = set()

    def name(self) -> str:
        """Returns a name of at most 63 bytes."""
        found = self.chance.choice(SPECIAL if self.chance.random() < self.special else PLAIN)
        if self.chance.random() < 0.03:
            found = self.chance.choice("ab_") * self.chance.randint(1, 63)
        if "\n" in found and not self.lines:
            found = "line"
        number = 0
        name = found
        while name in self.given:
            number += 1
            name = cut(found, 63 - len(str(number))) + str(number)
        self.given.add(name)
        return name


def cut(text: str, most: int) -> str:
    """Returns the text's first characters, with at most this many bytes."""
    while len(text.encode()) > most:
        text = text[:-1]
    return text


def spelled(name: str, chance: random.Random) -> str:
    """Returns a name as it is written: quoted if necessary, and sometimes if it is not."""
    if BARE.fullmatch(name) and name not in WORDS and chance.random() < 0.9:
        return name.upper() if chance.random() < 0.1 else name
    return '"' + name.replace('"', '""') + '"'
