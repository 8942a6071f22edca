"""PostgreSQL's own parser, through the Python library pglast."""

import re
from collections.abc import Sequence
from typing import Any

from pgshard_tools.judging.faults import NO_PROGRAM, Fault, Unread
from pgshard_tools.judging.pythons import has_pglast

EXTRACT = re.compile(r"pg_catalog\.extract\('(\w+)', ")
SCHEMA = re.compile(r"pg_catalog\.(?!position\()")
TEXT_CAST = re.compile(r"CAST\(('(?:[^']|'')*') AS text\)")
# Without quotes, the type bit has one bit.
BIT_CAST = re.compile(r" AS bit\)")
# Matches quoted text, or white space elsewhere.
BLANKS = re.compile(r"""('(?:[^']|'')*'|"(?:[^"]|"")*")|\s+""")
NO_MEANING = {"location", "funcformat", "list_start", "list_end"}
MISSING = (
    "pglast, which is PostgreSQL's parser as a Python library, is not installed: "
    "on Debian 12 `apt-get install python3-pglast` installs it"
)


def want_pglast() -> None:
    """Ends the run if pglast is not installed."""
    if not has_pglast():
        raise Fault(NO_PROGRAM, MISSING)


def parsed(text: str) -> Any:
    """Returns the tree of an expression."""
    import pglast  # type: ignore[import]
    try:
        statement = pglast.parse_sql(f"SELECT ({text})")
    except pglast.parser.ParseError as fault:
        raise Unread(text) from fault
    except UnicodeEncodeError as fault:
        # In SQL_ASCII, a text may consist of any bytes.
        raise Unread(text, "its bytes are not valid UTF8") from fault
    return statement[0].stmt.targetList[0].val


def is_parsed(text: str) -> bool:
    """Returns whether this parser, which may be older than the server's, can read an expression."""
    try:
        parsed(text)
    except Unread:
        return False
    return True


def written(node: Any) -> str:
    """Returns an expression as SQL, with text constants without the cast that the server prints."""
    from pglast.stream import RawStream  # type: ignore[import]
    return TEXT_CAST.sub(r"\1", RawStream()(node))


def faithful(node: Any) -> str:
    """Returns an expression as SQL that is parsed to the same expression again, so that equal texts are equal
    expressions."""
    from pglast.stream import RawStream
    text = BIT_CAST.sub(' AS "bit")', RawStream()(node))
    if tree_of(parsed(text)) != tree_of(node):
        raise Unread(text)
    return TEXT_CAST.sub(r"\1", text)


def side_text(node: Any) -> str:
    """Returns the same, in parentheses if an operator is next to it."""
    text = faithful(node)
    return text if is_alone(node) else f"({text})"


def is_alone(node: Any) -> bool:
    """Returns whether an expression is not one of an operator."""
    return kind_of(node) in ("ColumnRef", "A_Const", "FuncCall", "TypeCast")


def tree_of(node: Any) -> Any:
    """Returns a tree without positions in the text, and without the fields that say how a call was written."""
    if isinstance(node, tuple):
        return [tree_of(part) for part in node]
    if not (hasattr(node, "__slots__") and hasattr(node, "__iter__")):
        return node
    return kind_of(node), [(name, tree_of(getattr(node, name))) for name in node if name not in NO_MEANING]


def shown(text: str) -> str:
    """Returns SQL for people to read, in one line except for quoted newlines."""
    one_line = BLANKS.sub(lambda it: it[1] or " ", text).strip()
    text = EXTRACT.sub(r"EXTRACT(\1 FROM ", one_line)
    # The name `position` is a keyword, so it can only be followed by a list of arguments if it has its schema.
    return SCHEMA.sub("", text)


def kind_of(node: object) -> str:
    """Returns the kind of a node."""
    return type(node).__name__


def name_of(parts: Sequence[Any]) -> str:
    """Returns the name of an operator, a function or a type, without the server's own schema."""
    words = [part.sval for part in parts]
    if len(words) > 1 and words[0] == "pg_catalog":
        words = words[1:]
    return ".".join(words)


def columns_of(text: str) -> list[str]:
    """Returns the columns that an expression names, in the order of their first occurrence."""
    found: dict[str, bool] = {}
    try:
        gather(parsed(text), found)
    except Unread:
        return []
    return list(found)


def gather(node: Any, found: dict[str, bool]) -> None:
    """Adds the columns that a tree names."""
    if kind_of(node) == "ColumnRef":
        found.update({part.sval: True for part in node.fields if kind_of(part) == "String"})
    elif isinstance(node, tuple):
        for part in node:
            gather(part, found)
    elif hasattr(node, "__slots__") and hasattr(node, "__iter__"):
        for name in node:
            gather(getattr(node, name), found)


def is_built_in(text: str) -> bool:
    """Returns whether an expression contains only the server's own functions, operators and types. Names of others
    include a schema if the search path consists of pg_catalog only. A collation calls nothing."""
    try:
        return not has_schema(parsed(text))
    except Unread:
        return False


def has_schema(node: Any) -> bool:
    """Returns whether a tree contains a name with a schema other than the server's own."""
    if isinstance(node, tuple):
        return any(has_schema(part) for part in node)
    if not (hasattr(node, "__slots__") and hasattr(node, "__iter__")):
        return False
    names = {"FuncCall": "funcname", "A_Expr": "name", "TypeName": "names"}
    name = getattr(node, names.get(kind_of(node), ""), None)
    is_own = name is not None and len(name) > 1 and name[0].sval != "pg_catalog"
    return is_own or any(has_schema(getattr(node, part)) for part in node)
