"""The statements of a migration, each with its line, and why some of them cannot be tried in a transaction."""

from collections.abc import Iterator
from dataclasses import dataclass
from typing import Any

from pgshard_tools.judging.catalog_tokens import placed_tokens
from pgshard_tools.judging.faults import BAD_COMMAND, NOT_READ, Fault
from pgshard_tools.judging.parser import kind_of

# Functions whose effects are not undone by a rollback, if a statement calls them by name.
OUTSIDE = {
    "dblink", "dblink_connect", "dblink_connect_u", "dblink_exec", "dblink_send_query", "lo_export", "lo_import",
    "nextval", "pg_advisory_lock", "pg_advisory_lock_shared", "pg_backup_start", "pg_backup_stop", "pg_cancel_backend",
    "pg_copy_logical_replication_slot", "pg_copy_physical_replication_slot", "pg_create_logical_replication_slot",
    "pg_create_physical_replication_slot", "pg_create_restore_point", "pg_drop_replication_slot", "pg_file_rename",
    "pg_file_unlink", "pg_file_write", "pg_logical_emit_message", "pg_logical_slot_get_binary_changes",
    "pg_logical_slot_get_changes", "pg_promote", "pg_reload_conf", "pg_replication_origin_advance",
    "pg_replication_slot_advance", "pg_rotate_logfile", "pg_stat_reset", "pg_switch_wal", "pg_terminate_backend",
    "pg_try_advisory_lock", "pg_try_advisory_lock_shared", "pg_wal_replay_pause", "pg_wal_replay_resume", "setval"}


@dataclass(frozen=True)
class Statement:
    """A statement as in the file, and its position, as file:line."""

    text: str
    place: str


def statements_of(path: str) -> list[Statement]:
    """Returns the statements of a file, all of which can be tried."""
    import pglast  # type: ignore[import]
    text = read_file(path)
    try:
        trees = [it.stmt for it in pglast.parse_sql(text)]
    except pglast.parser.ParseError as fault:
        words, at = fault.args
        raise refused(place_of(path, text, at), f"{words}; --with reads statements of SQL, without commands of psql"
                      ) from fault
    found = []
    for tree, where in zip(trees, pglast.split(text, only_slices=True) if trees else ()):
        part = text[where]
        first = next(placed_tokens(part), (0, ""))[0]
        place = place_of(path, text, where.start + first)
        why = why_not_tried(tree)
        if why:
            raise refused(place, why)
        found.append(Statement(part[first:], place))
    return found


def read_file(path: str) -> str:
    """Returns the text of a file."""
    try:
        with open(path, encoding="utf-8") as file:
            return file.read()
    except (OSError, UnicodeDecodeError) as fault:
        raise Fault(BAD_COMMAND, f"cannot read {path}: {fault}") from fault


def place_of(path: str, text: str, at: int) -> str:
    """Returns the position of a character, as file:line."""
    return f"{path}:{text.count(chr(10), 0, at) + 1}"


def refused(place: str, words: str) -> Fault:
    """Returns the fault of a migration that is not tried, or that fails."""
    return Fault(NOT_READ, f"refused: {place}: {words}")


def why_not_tried(tree: Any) -> str | None:
    """Returns why a rollback might not undo a statement, or None."""
    match kind_of(tree):
        case "TransactionStmt":
            return ("--with runs the file in one transaction, which is rolled back, so the file cannot begin or end "
                    "one; try it without BEGIN, COMMIT, ROLLBACK and SAVEPOINT")
        case "CopyStmt":
            return "COPY has data or files outside of the database, which --with leaves alone; try the file without it"
    name = next((it for it in called(tree) if it in OUTSIDE), None)
    return f"a rollback does not undo what {name}() does; try the file without it" if name else None


def called(node: Any) -> Iterator[str]:
    """Yields the names of the functions that a tree calls."""
    if isinstance(node, tuple):
        for part in node:
            yield from called(part)
    elif hasattr(node, "__slots__") and hasattr(node, "__iter__"):
        if kind_of(node) == "FuncCall":
            yield node.funcname[-1].sval
        for name in node:
            yield from called(getattr(node, name))
