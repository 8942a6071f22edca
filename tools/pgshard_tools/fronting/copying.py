"""The queries of a subscriber that copies a table, answered as of the beginning of the log, where tables are empty."""

from pgshard_tools.fronting import frames
from pgshard_tools.fronting.catalog import Catalog, Table
from pgshard_tools.fronting.forms import Form, Found
from pgshard_tools.fronting.frames import BOOLEAN, CHARACTER, OID, SMALLINT, TEXT, VECTOR

RELATION = Form("""
    SELECT c.oid, c.relreplident, c.relkind FROM pg_catalog.pg_class c
    INNER JOIN pg_catalog.pg_namespace n ON (c.relnamespace = n.oid)
    WHERE n.nspname = $namespace AND c.relname = $relation
""")
COLUMN_LISTS = Form("""
    SELECT DISTINCT (CASE WHEN (array_length(gpt.attrs, 1) = c.relnatts) THEN NULL ELSE gpt.attrs END)
    FROM pg_publication p, LATERAL pg_get_publication_tables(p.pubname) gpt, pg_class c
    WHERE gpt.relid = $oid AND c.oid = gpt.relid AND p.pubname IN ($names)
""")
# The first is asked of servers from version 12 on.
COLUMNS = [Form(f"""
    SELECT a.attnum, a.attname, a.atttypid, a.attnum = ANY(i.indkey) FROM pg_catalog.pg_attribute a
    LEFT JOIN pg_catalog.pg_index i ON (i.indexrelid = pg_get_replica_identity_index($oid))
    WHERE a.attnum > 0::pg_catalog.int2 AND NOT a.attisdropped {more} AND a.attrelid = $again ORDER BY a.attnum
""") for more in ("AND a.attgenerated = ''", "")]
ROW_FILTERS = Form("""
    SELECT DISTINCT pg_get_expr(gpt.qual, gpt.relid)
    FROM pg_publication p, LATERAL pg_get_publication_tables(p.pubname) gpt
    WHERE gpt.relid = $oid AND p.pubname IN ($names)
""")
COPY = Form("COPY $schema.$table ($rest")


class Copying:
    """The answers from a catalog; None if the query is about no table of it."""

    def __init__(self, catalog: Catalog) -> None:
        self.catalog = catalog

    def relation(self, found: Found) -> bytes:
        """A table's OID and replica identity."""
        names = found["$namespace"][0], found["$relation"][0]
        listed = [(str(it.oid), it.letter, "r") for it in self.catalog.tables if (it.schema, it.name) == names]
        return frames.selected([("oid", OID), ("relreplident", CHARACTER), ("relkind", CHARACTER)], listed)

    def column_lists(self, found: Found) -> bytes:
        """Answers that no publication has a column list."""
        return frames.selected([("attrs", VECTOR)], [(None,)])

    def columns(self, found: Found) -> bytes:
        """A table's columns, with their types, and which of them are in the replica identity."""
        listed = [row for it in self.catalog.tables if str(it.oid) == found["$oid"][0] for row in columns_of(it)]
        described = [("attnum", SMALLINT), ("attname", TEXT), ("atttypid", OID), ("?column?", BOOLEAN)]
        return frames.selected(described, listed)

    def row_filters(self, found: Found) -> bytes:
        """Answers that there is no filter, since there are no rows."""
        return frames.selected([("pg_get_expr", TEXT)], [(None,)])

    def copy(self, found: Found) -> bytes | None:
        """The rows of a table at the beginning of the log."""
        names = found["$schema"][0], found["$table"][0]
        for table in self.catalog.tables:
            if (table.schema, table.name) == names:
                return frames.empty_copy(len(table.types))
        return None


def columns_of(table: Table) -> list[tuple[str | None, ...]]:
    """The row of each column of a table."""
    return [
        (str(number), name, str(kind), "t" if name in table.identity else "f")
        for number, (name, kind) in enumerate(table.types, 1)]
