"""What a connected subscriber requested: the START_REPLICATION command of the streaming replication protocol.

PostgreSQL's own subscribers write option names without quotes; pg_recvlogical, psycopg2, pgjdbc and therefore Debezium
write them with quotes, and pgjdbc writes the slot without.
"""

import re

# A keyword or a name, which is folded to lower case; a quoted name; a text; or another character.
TOKEN = re.compile(
    r"""\s*(?:(?P<word>[A-Za-z_\x80-\U0010ffff][\w$\x80-\U0010ffff]*)|"(?P<quoted>(?:[^"]|"")+)"
    |'(?P<text>(?:[^']|'')*)'|(?P<other>[0-9A-F]+/[0-9A-F]+|[^\s]))""", re.X)
# One of the names in a list, as the server's SplitIdentifierString reads it.
NAME = re.compile(r'\s*(?:"(?P<quoted>(?:[^"]|"")*)"|(?P<plain>[^\s,"]+))\s*(?P<end>,|\Z)')
OPTION = "publication_names"
MOST_BYTES = 63


def publication_names(query: str) -> list[str] | None:
    """Returns the publications that a command names, without duplicates, or None if it is not understood, for example
    because it is truncated."""
    options = options_of(query)
    return None if options is None or OPTION not in options else names_in(options[OPTION])


def options_of(query: str) -> dict[str, str] | None:
    """Returns the options of a command, or None if it does not end properly."""
    tokens = [it for it in TOKEN.finditer(query)]
    if "".join(it[0] for it in tokens) != query.rstrip():
        return None
    begin = next((at for at, it in enumerate(tokens) if it["other"] == "("), None)
    if begin is None:
        return None
    found, at = {}, begin + 1
    while at < len(tokens):
        name = option_name(tokens[at])
        if name is None:
            return None
        has_value = at + 1 < len(tokens) and tokens[at + 1]["text"] is not None
        found[name] = tokens[at + 1]["text"].replace("''", "'") if has_value else ""
        at += 2 if has_value else 1
        end = tokens[at]["other"] if at < len(tokens) else None
        if end == ")":
            rest = [it["other"] for it in tokens[at + 1:]]
            return found if all(it == ";" for it in rest) else None
        if end != ",":
            return None
        at += 1
    return None


def option_name(token: re.Match[str]) -> str | None:
    """Returns the name of an option, or None if a token is not one."""
    if token["word"] is not None:
        return token["word"].lower()
    return token["quoted"].replace('""', '"') if token["quoted"] is not None else None


def names_in(listed: str) -> list[str] | None:
    """Returns the names in a list, without duplicates, or None if the server does not accept it."""
    found, at = [], 0
    while True:
        one = NAME.match(listed, at)
        if one is None:
            return None
        name = one["quoted"].replace('""', '"') if one["quoted"] is not None else one["plain"].lower()
        found.append(cut(name))
        if not one["end"]:
            return list(dict.fromkeys(found))
        at = one.end()


def cut(name: str) -> str:
    """Returns a name as the server stores it, in at most 63 bytes."""
    return name.encode()[:MOST_BYTES].decode(errors="ignore")
