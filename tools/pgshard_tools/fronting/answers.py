"""The queries that clients send before they start a stream, and their answers."""

from collections.abc import Callable, Sequence
from dataclasses import dataclass

from pgshard_tools.fronting import copying, frames
from pgshard_tools.fronting.catalog import Catalog
from pgshard_tools.fronting.copying import Copying
from pgshard_tools.fronting.forms import Form, Found
from pgshard_tools.fronting.frames import INTEGER, NAMES, TEXT, position_text
from pgshard_tools.fronting.recording import BEGIN_OF_LOG
from pgshard_tools.fronting.slots import COPIES, Refused, Slots
from pgshard_tools.fronting.tokens import Kind, Token

IDENTITY = Form("IDENTIFY_SYSTEM")
SETTING = Form("SHOW $name")
SEARCH_PATH = Form("SELECT pg_catalog.set_config('search_path', '', false)")
BEGIN = Form("BEGIN READ ONLY ISOLATION LEVEL REPEATABLE READ")
COMMIT = Form("COMMIT")
CREATE_SLOT = [Form(f"CREATE_REPLICATION_SLOT $name {kind} LOGICAL pgoutput $rest") for kind in ("", "TEMPORARY")]
CREATE_QUOTED = [Form(f'CREATE_REPLICATION_SLOT $name {kind} LOGICAL "pgoutput" $rest') for kind in ("", "TEMPORARY")]
DROP_SLOT, DROP_FREE_SLOT = Form("DROP_REPLICATION_SLOT $name"), Form("DROP_REPLICATION_SLOT $name WAIT")
# What a subscriber asks when a subscription is created, and when its publications are refreshed.
PUBLICATIONS = Form("SELECT t.pubname FROM pg_catalog.pg_publication t WHERE t.pubname IN ($names)")
TABLES, TABLES_WITH_COLUMNS = [Form(f"""
    SELECT DISTINCT t.schemaname, t.tablename {columns} FROM pg_catalog.pg_publication_tables t
    WHERE t.pubname IN ($names)
""") for columns in ("", ", t.attnames")]

# Longer names do not exist, and are not repeated in full.
LONGEST_NAME = 63

NO_COPY = frames.error(
    "0A000", "pgshard front has tables to copy only as they are at the beginning of the log, which is empty",
    "A subscription copies them by slots of its own. Other clients start their streams from 0/0.")
NO_SQL = frames.error(
    "0A000", "this is pgshard front, which relays the streams of pgshard serve and runs no SQL",
    "It answers START_REPLICATION SLOT .. LOGICAL, and what clients ask before that.")
NO_CATALOG = frames.error(
    "0A000", "pgshard front was given no catalog, so it does not know the tables of publications",
    "Start it with --catalog FILE, the input of pgshard serve or its first part.")


@dataclass
class Asker:
    """A client that asks: which database it named, and whether it is in a transaction, with the snapshot of a slot."""

    database: str
    in_transaction: bool = False
    has_snapshot: bool = False


class Answers:
    """The answers of a front, which reports a version and may have a catalog."""

    def __init__(self, version: str, catalog: Catalog | None, slots: Slots) -> None:
        self.version = version
        self.catalog = catalog
        self.slots = slots
        self.settings = {
            "server_version": version,
            "server_encoding": "UTF8",
            "client_encoding": "UTF8",
            "application_name": "",
            "is_superuser": "off",
            "session_authorization": "",
            "DateStyle": "ISO, MDY",
            "IntervalStyle": "postgres",
            "TimeZone": "UTC",
            "integer_datetimes": "on",
            "standard_conforming_strings": "on",
        }
        # Further settings that pg_recvlogical asks for.
        self.shown = {name.lower(): value for name, value in self.settings.items()} | {
            "data_directory_mode": "0700", "wal_segment_size": "16MB"}
        self.forms: list[tuple[Form, Callable[[Found, Asker], bytes]]] = [
            (SEARCH_PATH, lambda found, asker: frames.selected([("set_config", TEXT)], [("",)])),
            (IDENTITY, self.identity),
            (SETTING, self.setting),
            (BEGIN, self.begin),
            (COMMIT, self.commit),
            *((form, self.slot) for form in [*CREATE_SLOT, *CREATE_QUOTED]),
            (DROP_SLOT, self.drop),
            (DROP_FREE_SLOT, self.drop),
        ]
        self.forms += self.catalog_forms(catalog) if catalog is not None else [
            (form, lambda found, asker: NO_CATALOG) for form in (PUBLICATIONS, TABLES, TABLES_WITH_COLUMNS)]

    def catalog_forms(self, catalog: Catalog) -> list[tuple[Form, Callable[[Found, Asker], bytes]]]:
        """The forms that can only be answered with a catalog."""
        made = Copying(catalog)
        return [
            (PUBLICATIONS, lambda found, asker: publications(catalog, found)),
            (TABLES, lambda found, asker: tables(catalog, found, width=2)),
            (TABLES_WITH_COLUMNS, lambda found, asker: tables(catalog, found, width=3)),
            (copying.RELATION, lambda found, asker: made.relation(found)),
            (copying.COLUMN_LISTS, lambda found, asker: made.column_lists(found)),
            *((form, lambda found, asker: made.columns(found)) for form in copying.COLUMNS),
            (copying.ROW_FILTERS, lambda found, asker: made.row_filters(found)),
            (copying.COPY, lambda found, asker: (made.copy(found) if asker.has_snapshot else None) or NO_COPY),
        ]

    def answer(self, tokens: Sequence[Token], asker: Asker) -> bytes:
        """The answer to a query that starts no stream, without ReadyForQuery."""
        if not tokens:
            return frames.frame(b"I")
        try:
            for form, answer in self.forms:
                found = form.match(tokens)
                if found is not None:
                    return answer(found, asker)
        except Refused as refused:
            return refused.response
        is_copy = tokens[0].kind is Kind.WORD and tokens[0].text in ("begin", "copy")
        return NO_COPY if is_copy else NO_SQL

    @staticmethod
    def identity(found: Found, asker: Asker) -> bytes:
        """Answers IDENTIFY_SYSTEM: where the log begins, and which database it is."""
        columns = [("systemid", TEXT), ("timeline", INTEGER), ("xlogpos", TEXT), ("dbname", TEXT)]
        return frames.rows(columns, [("0", "1", "0/0", asker.database)], "IDENTIFY_SYSTEM")

    def setting(self, found: Found, asker: Asker) -> bytes:
        """A setting's value."""
        name = found["$name"][0][:LONGEST_NAME]
        value = self.shown.get(name.lower())
        if value is None:
            return frames.error("42704", f'unrecognized configuration parameter "{name}"')
        return frames.rows([(name, TEXT)], [(value,)], "SHOW")

    @staticmethod
    def begin(found: Found, asker: Asker) -> bytes:
        """Begins the transaction in which a table is copied."""
        asker.in_transaction = True
        return frames.complete("BEGIN")

    @staticmethod
    def commit(found: Found, asker: Asker) -> bytes:
        """Ends the transaction, and with it the snapshot."""
        asker.in_transaction = asker.has_snapshot = False
        return frames.complete("COMMIT")

    def slot(self, found: Found, asker: Asker) -> bytes:
        """Creates a slot that starts at the beginning of the log, where all tables are empty."""
        name, options = found["$name"][0], {word.lower() for word in found["$rest"]}
        wants_snapshot = bool(options & {"use", "export", "use_snapshot", "export_snapshot"})
        if wants_snapshot and not (COPIES.fullmatch(name) and asker.in_transaction):
            return NO_COPY
        self.slots.make(name)
        asker.has_snapshot = wants_snapshot
        columns = [(it, TEXT) for it in ("slot_name", "consistent_point", "snapshot_name", "output_plugin")]
        row = name, position_text(BEGIN_OF_LOG), None, "pgoutput"
        return frames.rows(columns, [row], "CREATE_REPLICATION_SLOT")

    def drop(self, found: Found, asker: Asker) -> bytes:
        """Drops a slot."""
        self.slots.drop(found["$name"][0])
        return frames.complete("DROP_REPLICATION_SLOT")


def publications(catalog: Catalog, found: Found) -> bytes:
    """Which of these publications exist."""
    listed = [(name,) for name in found["$names"] if name in catalog.publications]
    return frames.selected([("pubname", TEXT)], listed)


def tables(catalog: Catalog, found: Found, width: int) -> bytes:
    """The tables that these publications carry, with this many columns of the answer."""
    columns = [("schemaname", TEXT), ("tablename", TEXT), ("attnames", NAMES)]
    listed = [(it.schema, it.name, array(it.columns))[:width] for it in catalog.tables_of(found["$names"])]
    return frames.selected(columns[:width], listed)


def array(names: tuple[str, ...]) -> str:
    """An array's text."""
    quoted = ('"' + name.replace("\\", "\\\\").replace('"', '\\"') + '"' for name in names)
    return "{" + ",".join(quoted) + "}"
