"""Finds places in the text of a certificate."""

import re

NUMBER = re.compile(r"(?:0|[1-9]\d*)\Z")


def place_of_fault(line: str) -> int:
    """Returns where the fault in a certificate is, in characters from 0."""
    at, wanted, is_letter = 0, 1, True
    while wanted > 0 or not is_letter:
        word = line[at:].split(" ", 1)[0]
        if is_letter and word not in ("s", "o", "e", "n") or not is_letter and NUMBER.match(word) is None:
            return at
        if is_letter:
            wanted += 2 if word == "s" else -1
        at += len(word)
        is_letter = not is_letter
        if wanted > 0 or not is_letter:
            if line[at:at + 1] != " ":
                return at
            at += 1
    return at


def place_of_node(line: str, node: int) -> int:
    """Returns where a node begins, in characters from 0."""
    words = line.split(" ")
    return sum(len(word) + 1 for word in words[:2 * node])
