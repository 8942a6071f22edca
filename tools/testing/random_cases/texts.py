"""Joins tokens to texts, either with one space between tokens, or with random white space, comments and letter case."""

import random

SPACES = [
    " ", " ", " ", "  ", "\n", "\t", "\r\n", "\f", " /* a ; comment /* in one */ */ ", " -- ' to the end\n", " --\r"]
# White space within one line.
FLAT_SPACES = [" ", " ", " ", "  ", "\t", "\r", "\f", " /* ( */ "]


class Exact(str):
    """A token whose letter case must not change: a name or a literal."""


def joined(tokens: list[str], chance: random.Random, noise: bool, spaces: list[str] = SPACES) -> str:
    """Returns the text of tokens."""
    if not noise:
        return " ".join(tokens)
    parts = []
    for token in tokens:
        parts.append(token if isinstance(token, Exact) else any_case(token, chance))
        parts.append(chance.choice(spaces))
    return "".join(parts)


def any_case(word: str, chance: random.Random) -> str:
    """Returns a keyword in upper, lower or mixed case."""
    return chance.choice([word.upper(), word.lower(), word.capitalize()])


def commas(items: list[list[str]]) -> list[str]:
    """Returns lists of tokens, separated by commas."""
    found: list[str] = []
    for number, item in enumerate(items):
        found += [",", *item] if number else item
    return found
