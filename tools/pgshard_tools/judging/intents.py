"""The intentions in a file of --intent: what a schema cannot express."""

from collections.abc import Mapping, Sequence
from dataclasses import dataclass, field, replace
from typing import Any

from pgshard_tools.judging import subscribers, verdicts
from pgshard_tools.judging.database import Database, Subscriber
from pgshard_tools.judging.faults import BAD_COMMAND, Fault
from pgshard_tools.judging.options import Options
from pgshard_tools.judging.refusals import OMISSIBLE
from pgshard_tools.judging.shares import Shares, leave_out
from pgshard_tools.judging.verdicts import Verdict

COPIED, PARTIAL, APPEND_ONLY, OMITTED, SKIP, SUBSCRIBERS = (
    "copied", "partial", "append-only", "omitted", "skip", "subscribers")
LISTS, MAPPINGS = (COPIED, PARTIAL, APPEND_ONLY, SKIP), (OMITTED, SUBSCRIBERS)


@dataclass(frozen=True)
class Intent:
    """The contents of the file: lists of tables by intention, omitted operations of tables, and who subscribes."""

    path: str = ""
    lists: Mapping[str, Sequence[str]] = field(default_factory=dict)
    omitted: Mapping[str, Sequence[str]] = field(default_factory=dict)
    subscribers: Mapping[str, Sequence[str]] = field(default_factory=dict)

    def listed(self, word: str) -> list[str]:
        """Returns the tables of a list by their full names."""
        return [full(it) for it in self.lists.get(word, ())]

    def operations(self) -> dict[str, frozenset[str]]:
        """Returns the operations that tables leave out on purpose, by full names."""
        found = {full(name): frozenset(operations) for name, operations in self.omitted.items()}
        return found | dict.fromkeys(self.listed(APPEND_ONLY), frozenset(OMISSIBLE))

    def says(self, word: str) -> str:
        """Returns how an answer cites the file."""
        return f"as {word} in {self.path} says"

    def named(self) -> list[tuple[str, str]]:
        """Returns all tables that the file names, by their full names, each with the key that names it."""
        listed = [(word, it) for word in LISTS for it in self.listed(word)]
        return [*listed, *((OMITTED, full(it)) for it in self.omitted)]


def full(name: str) -> str:
    """Returns a table's name with its schema, which is public if none is given."""
    return name if "." in name else f"public.{name}"


def read(path: str | None) -> Intent:
    """Returns the contents of the file, or nothing if there is none."""
    if path is None:
        return Intent()
    found = parsed(path)
    for key in found:
        if key not in (*LISTS, *MAPPINGS):
            raise Fault(BAD_COMMAND, f"{path}: {key}: an intention is one of {', '.join((*LISTS, *MAPPINGS))}")
    lists = {key: names(path, key, found.get(key, [])) for key in LISTS}
    omitted, taking = ({name: names(path, f"{key}.{name}", listed) for name, listed in mapping(path, key, found)}
                            for key in MAPPINGS)
    for name, operations in omitted.items():
        for operation in operations:
            if operation not in OMISSIBLE:
                raise Fault(BAD_COMMAND, f"{path}: {OMITTED}.{name}: {operation} is not one of {', '.join(OMISSIBLE)}")
    return Intent(path, lists, omitted, taking)


def parsed(path: str) -> dict[str, Any]:
    """Returns the file as parsed by Python, which can do so from version 3.11 on."""
    try:
        import tomllib
    except ImportError as fault:
        raise Fault(BAD_COMMAND, "--intent needs Python 3.11 or later, which reads TOML") from fault
    try:
        with open(path, "rb") as file:
            return tomllib.load(file)
    except (OSError, tomllib.TOMLDecodeError, UnicodeDecodeError) as fault:
        raise Fault(BAD_COMMAND, f"cannot read {path}: {fault}") from fault


def mapping(path: str, key: str, found: Mapping[str, Any]) -> list[tuple[str, Any]]:
    """Returns the lists, by name, in a table of the file."""
    value = found.get(key, {})
    if not isinstance(value, dict):
        raise Fault(BAD_COMMAND, f"{path}: {key} is a table of lists, as in [{key}]")
    return list(value.items())


def names(path: str, key: str, value: Any) -> list[str]:
    """Returns a list of names."""
    if not isinstance(value, list) or not all(isinstance(it, str) for it in value):
        raise Fault(BAD_COMMAND, f"{path}: {key} is a list of texts, as in {key} = [\"public.orders\"]")
    return value


def with_intent(options: Options, intent: Intent) -> Options:
    """Returns the options, with those that the file implies."""
    return replace(options, copied=[*options.copied, *intent.listed(COPIED)],
                   partial=[*options.partial, *intent.listed(PARTIAL)])


def subscribers_of(db: Database, options: Options, intent: Intent) -> tuple[list[Subscriber], str]:
    """Returns the subscribers, and a line that says how they are known. The command line takes precedence over the
    file."""
    if intent.subscribers and options.subscriptions is None and not options.subscriber:
        return subscribers.from_intent(db, intent.path, intent.subscribers)
    return subscribers.subscribers_of(db, options.subscriptions, options.subscriber)


def want_published(intent: Intent, tables: Sequence[Shares]) -> None:
    """Refuses a file that names a table of which nothing is published."""
    for word, name in intent.named():
        if not any(name in it.names for it in tables):
            raise Fault(BAD_COMMAND, f"{intent.path}: {word}: {name}: no such table is published")


def taken(db: Database, intent: Intent, tables: Sequence[Shares]) -> list[Shares]:
    """Returns the tables to be judged, with the operations that are left out on purpose."""
    skipped = set(intent.listed(SKIP))
    found = [it for it in tables if not skipped & it.names]
    leave_out(db, found, intent.operations())
    return found


def skipped(intent: Intent) -> list[str]:
    """Returns the lines about tables that are not judged."""
    return [f"{name}: not judged, {intent.says(SKIP)}" for name in intent.listed(SKIP)]


def cite(
        intent: Intent, found: Sequence[Verdict], listed: Sequence[Subscriber], purposes: Mapping[str, str]) -> None:
    """Adds to each verdict the intention that it depends on, or the one that would allow what is refused."""
    if not intent.path:
        return
    for verdict in found:
        for word, remark in (COPIED, verdicts.COPIED), (PARTIAL, verdicts.PUBLISHED_IN_PART):
            if verdict.table in intent.listed(word):
                verdict.remarks = [f"{it}, {intent.says(word)}" if it == remark else it for it in verdict.remarks]
        if verdict.left_out:
            word = APPEND_ONLY if verdict.table in intent.listed(APPEND_ONLY) else OMITTED
            verdict.remarks.append(f"{' and '.join(verdict.left_out)} left out, {intent.says(word)}")
        if verdict.answer == verdicts.NOT_SOUND and verdict.row is not None and verdict.table not in purposes:
            allowing = PARTIAL if not verdict.takers else COPIED if len(verdict.takers) == len(listed) else None
            if allowing is not None:
                verdict.remarks.append(f"{allowing} = [\"{verdict.table}\"] in {intent.path} would allow it")
