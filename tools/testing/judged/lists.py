"""Lists in SQL."""


def parts_of(text: str) -> list[str]:
    """Returns the parts of a list, which are separated by commas outside parentheses."""
    found, depth, begin = [], 0, 0
    for at, letter in enumerate([*text, ","]):
        depth += (letter == "(") - (letter == ")")
        if letter == "," and depth == 0:
            found.append(text[begin:at].strip())
            begin = at + 1
    return found
