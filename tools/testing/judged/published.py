"""Databases for the rules by which a server decides what it publishes, and to whom. docs/JUDGING.md lists the rules.

`fails` of a case contains statements that the server refuses, each with a part of its message.
"""

from judged.databases import Case

LOG = """
    CREATE TABLE log (id bigint, day date NOT NULL, PRIMARY KEY (id, day)) PARTITION BY RANGE (day);
    CREATE TABLE log_2023 PARTITION OF log FOR VALUES FROM ('2023-01-01') TO ('2024-01-01');
"""
BY_ROOT = """
    CREATE PUBLICATION even FOR TABLE log WHERE (id % 2 = 0) WITH (publish_via_partition_root);
    CREATE PUBLICATION odd FOR TABLE log WHERE (id % 2 <> 0) WITH (publish_via_partition_root);
"""
UNLOGGED = "CREATE UNLOGGED TABLE log_2024 PARTITION OF log FOR VALUES FROM ('2024-01-01') TO ('2025-01-01')"
# What the server answers to a subscriber of both publications. The temporary slot vanishes with the connection.
BOTH_LISTS = """
    SELECT FROM pg_create_logical_replication_slot('listed', 'pgoutput', true);
    {}
    SELECT FROM pg_logical_slot_peek_binary_changes(
        'listed', NULL, NULL, 'proto_version', '1', 'publication_names', 'one,two');
"""

PUBLISHED = [
    # An unlogged partition is not in the WAL, so a root that is published as one table loses the partition's rows.
    Case("unlogged_partition", f"{LOG} {UNLOGGED}; {BY_ROOT}", {"log": "not sound:"},
        told=["partition public.log_2024, which takes this row, is unlogged", "'2024-01-01'"]),
    # If the partitions themselves are published, the other ones are sound.
    Case("unlogged_beside", f"{LOG} {UNLOGGED}; CREATE PUBLICATION p FOR ALL TABLES;",
        {"log_2023": "sound", "log_2024": "not sound:"}),
    # Rows that nobody gets may be intended, and a partition may have bounds that no row fits.
    Case("unlogged_on_purpose", f"{LOG} {UNLOGGED}; {BY_ROOT}", {"log": "sound"}, words=["--partial", "log"]),
    Case("unlogged_and_empty", f"{LOG} {UNLOGGED}; ALTER TABLE log_2024 ADD CHECK (day < '2024-01-01'); {BY_ROOT}",
        {"log": "sound"}),
    # Only a part of the tree is published, and the unlogged partition is in the other part.
    Case("unlogged_elsewhere", f"{LOG} {UNLOGGED}; CREATE PUBLICATION p FOR TABLE log_2023;", {"log_2023": "sound"}),
    # The rows of a foreign table are stored elsewhere.
    Case("foreign_partition", f"""
        CREATE TABLE log (id bigint NOT NULL, day date NOT NULL) PARTITION BY RANGE (day);
        CREATE TABLE log_2023 PARTITION OF log FOR VALUES FROM ('2023-01-01') TO ('2024-01-01');
        ALTER TABLE log_2023 REPLICA IDENTITY FULL;
        CREATE FOREIGN DATA WRAPPER nothing; CREATE SERVER elsewhere FOREIGN DATA WRAPPER nothing;
        CREATE FOREIGN TABLE log_old PARTITION OF log FOR VALUES FROM ('2001-01-01') TO ('2002-01-01') SERVER elsewhere;
        {BY_ROOT}""", {"log": "not sound:"}, refusing=["log"],
        told=["partition public.log_old, which takes this row, is a foreign table"],
        fails=[("INSERT INTO log VALUES (1, '2001-05-05')", 'foreign-data wrapper "nothing" has no handler')]),
    # The server enforces the bounds of a foreign table only for rows that are routed through a table above it. Thus
    # even a partition whose bounds no row fits may have one, which is then a row of the published table.
    Case("foreign_without_bounds", f"""
        CREATE TABLE log (id bigint NOT NULL, day date NOT NULL) PARTITION BY RANGE (day);
        CREATE TABLE log_2023 PARTITION OF log FOR VALUES FROM ('2023-01-01') TO ('2024-01-01');
        ALTER TABLE log_2023 REPLICA IDENTITY FULL;
        CREATE TABLE log_2022 PARTITION OF log FOR VALUES FROM ('2022-01-01') TO ('2023-01-01') PARTITION BY RANGE (day);
        CREATE EXTENSION postgres_fdw;
        DO $$ BEGIN EXECUTE format('CREATE SERVER loop FOREIGN DATA WRAPPER postgres_fdw OPTIONS (host %L, dbname %L)',
                                   current_setting('unix_socket_directories'), current_database()); END $$;
        CREATE USER MAPPING FOR CURRENT_USER SERVER loop OPTIONS (user 'postgres', password_required 'false');
        CREATE TABLE remote (id bigint NOT NULL, day date NOT NULL);
        CREATE FOREIGN TABLE log_never PARTITION OF log_2022 FOR VALUES FROM ('2024-01-01') TO ('2025-01-01')
            SERVER loop OPTIONS (table_name 'remote');
        INSERT INTO log_never VALUES (1, '2023-05-05');
        DO $$ BEGIN ASSERT (SELECT count(*) FROM log) = 1; END $$;
        {BY_ROOT}""", {"log": "not sound:"}, refusing=["log"],
        told=["partition public.log_never, which takes this row, is a foreign table",
              "INSERT into public.log_never itself takes it, since the server does not enforce the bounds"],
        fails=[("INSERT INTO log VALUES (1, '2022-05-05')", "no partition of relation")]),
    # A temporary table cannot be a partition of a permanent one, nor the other way round.
    Case("temporary_partition", f"{LOG} {BY_ROOT}", {"log": "sound"}, fails=[
        ("CREATE TEMP TABLE gone PARTITION OF log DEFAULT",
         "cannot create a temporary relation as partition of permanent relation"),
        ("CREATE TEMP TABLE gone (id integer) PARTITION BY RANGE (id); CREATE TABLE kept PARTITION OF gone DEFAULT",
         "cannot create a permanent relation as partition of temporary relation")]),
    # An unlogged root has logged partitions, whose rows are sent as those of a table that no subscription lists.
    Case("unlogged_root", """
        CREATE UNLOGGED TABLE log (id bigint PRIMARY KEY) PARTITION BY RANGE (id);
        CREATE TABLE log_low PARTITION OF log FOR VALUES FROM (0) TO (100);
        CREATE PUBLICATION p FOR ALL TABLES WITH (publish_via_partition_root);
    """, {"log": "refused"}, told=["its rows are sent as those of public.log, which is unlogged"]),
    # An unlogged table is in no publication of all tables.
    Case("unlogged_table", """
        CREATE UNLOGGED TABLE cache (id integer PRIMARY KEY);
        CREATE TABLE kept (id integer PRIMARY KEY);
        CREATE PUBLICATION p FOR ALL TABLES;
    """, {"kept": "sound"}, told=["1 not published"]),
    # No partition accepts a row of 2024, so no filter has to.
    Case("no_other_partition", f"""{LOG}
        CREATE PUBLICATION spring FOR TABLE log WHERE (day < '2023-07-01') WITH (publish_via_partition_root);
        CREATE PUBLICATION autumn FOR TABLE log WHERE (day BETWEEN '2023-07-01' AND '2023-12-31')
            WITH (publish_via_partition_root);
    """, {"log": "sound"}, fails=[("INSERT INTO log VALUES (1, '2024-01-01')", "no partition of relation")]),
    # Rows that a partition refuses because of its own CHECK or NOT NULL need not pass any filter.
    Case("narrower_partitions", """
        CREATE TABLE log (id bigint, kind integer) PARTITION BY RANGE (id);
        CREATE TABLE log_low PARTITION OF log FOR VALUES FROM (0) TO (10);
        CREATE TABLE log_high PARTITION OF log FOR VALUES FROM (10) TO (20);
        ALTER TABLE log_low ADD CHECK (kind >= 0); ALTER TABLE log_low ALTER kind SET NOT NULL;
        ALTER TABLE log_high ADD CHECK (kind IS NOT NULL AND kind < 5);
        ALTER TABLE log_low REPLICA IDENTITY FULL; ALTER TABLE log_high REPLICA IDENTITY FULL;
        CREATE PUBLICATION few FOR TABLE log WHERE (kind < 5) WITH (publish_via_partition_root);
        CREATE PUBLICATION many FOR TABLE log WHERE (kind >= 5 AND kind < 100) WITH (publish_via_partition_root);
    """, {"log": "not sound:"}, told=["(0, 100)"]),
    # Without partitions a table has no rows; it is judged as if there were a partition for every row.
    Case("no_partition", """
        CREATE TABLE log (id bigint) PARTITION BY RANGE (id);
        CREATE PUBLICATION low FOR TABLE log WHERE (id < 5) WITH (publish_via_partition_root);
        CREATE PUBLICATION high FOR TABLE log WHERE (id >= 5) WITH (publish_via_partition_root);
    """, {"log": "not sound:"}, refusing=["log"], told=["but it has no partition, so the server takes no row of it"]),
    # Hash partitions together accept all rows: each value, including NULL, belongs in one of them.
    Case("by_hash", """
        CREATE TABLE cells (id bigint, kind integer) PARTITION BY HASH (id);
        CREATE TABLE cells_0 PARTITION OF cells FOR VALUES WITH (MODULUS 2, REMAINDER 0);
        CREATE TABLE cells_1 PARTITION OF cells FOR VALUES WITH (MODULUS 2, REMAINDER 1);
        ALTER TABLE cells_0 REPLICA IDENTITY FULL; ALTER TABLE cells_1 REPLICA IDENTITY FULL;
        CREATE PUBLICATION low FOR TABLE cells WHERE (kind < 5) WITH (publish_via_partition_root);
        CREATE PUBLICATION high FOR TABLE cells WHERE (kind >= 5) WITH (publish_via_partition_root);
    """, {"cells": "not sound:"}, told=["kind = NULL"]),
    # A filter that the server cannot prepare ends the stream at the first row, even if its publication publishes only
    # updates.
    Case("not_prepared", """
        CREATE TABLE notes (id bigint PRIMARY KEY, kind integer);
        CREATE TABLE plans (id bigint PRIMARY KEY, area polygon);
        ALTER TABLE notes REPLICA IDENTITY FULL; ALTER TABLE plans REPLICA IDENTITY FULL;
        CREATE PUBLICATION one FOR TABLE notes, plans WITH (publish = 'insert');
        CREATE PUBLICATION two FOR TABLE notes WHERE (kind > 1 / 0), plans WHERE (greatest(area, area) IS NULL)
            WITH (publish = 'update, delete, truncate');
    """, {"notes": "refused", "plans": "refused"}, words=["-v", "subscriptions=all=one,two"],
        told=["each row stops the replication of all: the filter of publication two fails"],
        fails=[(BOTH_LISTS.format("INSERT INTO notes VALUES (1, 1);"), "division by zero"),
               (BOTH_LISTS.format("INSERT INTO plans VALUES (1, NULL);"), "could not identify a comparison function")]),
    # A DEFAULT partition without others has no bounds, but may have constraints of its own.
    Case("only_default", """
        CREATE TABLE log (id bigint, kind integer) PARTITION BY LIST (id);
        CREATE TABLE log_rest PARTITION OF log (kind NOT NULL) DEFAULT;
        CREATE TABLE old (id bigint, kind integer) PARTITION BY LIST (id);
        CREATE TABLE old_rest PARTITION OF old (CHECK (kind < 5 OR kind > 9)) DEFAULT;
        ALTER TABLE log_rest REPLICA IDENTITY FULL; ALTER TABLE old_rest REPLICA IDENTITY FULL;
        CREATE PUBLICATION low FOR TABLE log WHERE (kind < 5), old WHERE (kind < 5 OR kind IS NULL)
            WITH (publish_via_partition_root);
        CREATE PUBLICATION high FOR TABLE log WHERE (kind >= 5), old WHERE (kind > 9) WITH (publish_via_partition_root);
    """, {"log": "sound", "old": "sound"}, fails=[("INSERT INTO log VALUES (1, NULL)", "violates not-null constraint"),
                                                 ("INSERT INTO old VALUES (1, 5)", "violates check constraint")]),
    # A domain may refuse NULL in a column that no filter names.
    Case("domain_without_null", """
        CREATE DOMAIN given AS text CHECK (VALUE IS NOT NULL);
        CREATE TABLE notes (id bigint PRIMARY KEY, kind integer, note given);
        ALTER TABLE notes REPLICA IDENTITY FULL;
        CREATE PUBLICATION low FOR TABLE notes WHERE (kind < 5);
        CREATE PUBLICATION high FOR TABLE notes WHERE (kind >= 5);
    """, {"notes": "not sound:"}, refusing=["notes"], told=["judge knows no value of the type of column note"],
        fails=[("INSERT INTO notes VALUES (0, NULL, NULL)", "violates check constraint")]),
    # A subscriber to a table with two different column lists: the server ends its replication at the first row.
    Case("two_lists", """
        CREATE TABLE people (id integer PRIMARY KEY, name text, mail text);
        CREATE PUBLICATION one FOR TABLE people (id, name) WHERE (id < 5);
        CREATE PUBLICATION two FOR TABLE people (id, mail) WHERE (id >= 5);
    """, {"people": "refused"}, words=["-v", "subscriptions=all=one,two"],
        told=["subscriber all takes publications one and two, whose column lists differ"],
        fails=[(BOTH_LISTS.format("INSERT INTO people VALUES (1, 'a', 'b');"), 'cannot use different column lists for table "public.people"')]),
    # Different lists for different subscribers are allowed, and so are one list twice, and a list of all columns
    # together with no list.
    Case("one_list_each", """
        CREATE TABLE people (id integer PRIMARY KEY, name text, mail text);
        CREATE TABLE same (id integer PRIMARY KEY, name text, mail text);
        CREATE PUBLICATION one FOR TABLE people (id, name) WHERE (id < 5);
        CREATE PUBLICATION two FOR TABLE people (id, mail) WHERE (id >= 5);
    """, {"people": "sound"}),
    Case("one_list_twice", f"""
        CREATE TABLE people (id integer PRIMARY KEY, name text, mail text);
        CREATE TABLE whole (id integer PRIMARY KEY, name text);
        CREATE PUBLICATION one FOR TABLE people (id, name) WHERE (id < 5), whole (name, id) WHERE (id < 5);
        CREATE PUBLICATION two FOR TABLE people (name, id) WHERE (id >= 5), whole WHERE (id >= 5);
        {BOTH_LISTS.format("INSERT INTO people VALUES (1, 'a', 'b'); INSERT INTO whole VALUES (1, 'a');")}
    """, {"people": "sound", "whole": "sound"}, words=["-v", "subscriptions=all=one,two"]),
    # A list of all columns counts as different from no list if the server counts more columns: generated or dropped
    # ones.
    Case("whole_list_and_dropped", """
        CREATE TABLE people (id integer PRIMARY KEY, gone text, name text);
        ALTER TABLE people DROP COLUMN gone;
        CREATE PUBLICATION one FOR TABLE people (id, name) WHERE (id < 5);
        CREATE PUBLICATION two FOR TABLE people WHERE (id >= 5);
    """, {"people": "refused"}, words=["-v", "subscriptions=all=one,two"],
        told=["subscriber all takes publications one and two, whose column lists differ"],
        fails=[(BOTH_LISTS.format("INSERT INTO people VALUES (1, 'a');"), 'cannot use different column lists for table "public.people"')]),
    Case("whole_list_and_generated", """
        CREATE TABLE people (id integer PRIMARY KEY, name text, next integer GENERATED ALWAYS AS (id + 1) STORED);
        CREATE PUBLICATION one FOR TABLE people (id, name) WHERE (id < 5);
        CREATE PUBLICATION two FOR ALL TABLES;
    """, {"people": "refused"}, words=["-v", "subscriptions=all=one,two"],
        told=["subscriber all takes publications one and two, whose column lists differ"],
        fails=[(BOTH_LISTS.format("INSERT INTO people VALUES (1, 'a');"), 'cannot use different column lists for table "public.people"')]),
    # Under FULL, the server refuses changes of a table with any column list, even one of all columns.
    Case("list_and_full", """
        CREATE TABLE people (id integer PRIMARY KEY, name text);
        ALTER TABLE people REPLICA IDENTITY FULL;
        INSERT INTO people VALUES (1, 'a');
        CREATE PUBLICATION one FOR TABLE people (id, name);
    """, {"people": "refused"}, told=["publication one has a column list, and the replica identity is FULL"],
        fails=[("UPDATE people SET name = 'b'", "Column list used by the publication does not cover")]),
    # The server checks the filters and lists of all publications of a table, also of those that nobody subscribes to.
    Case("nobody_takes_it", """
        CREATE TABLE orders (id integer PRIMARY KEY, region integer NOT NULL);
        CREATE TABLE lines (id integer PRIMARY KEY, region integer NOT NULL);
        CREATE TABLE notes (id integer NOT NULL);
        CREATE TABLE kept (id integer PRIMARY KEY, region integer NOT NULL);
        INSERT INTO orders VALUES (1, 1); INSERT INTO lines VALUES (1, 1); INSERT INTO notes VALUES (1);
        CREATE PUBLICATION taken FOR TABLE orders, lines, kept;
        CREATE PUBLICATION of_inserts FOR TABLE notes WITH (publish = 'insert');
        CREATE PUBLICATION other FOR TABLE orders WHERE (region = 1), lines (region), notes;
        CREATE PUBLICATION inserted FOR TABLE kept WHERE (region = 1) WITH (publish = 'insert, truncate');
    """, {"orders": "refused", "lines": "refused", "notes": "refused", "kept": "sound"},
        words=["-v", "subscriptions=london=taken,of_inserts"],
        told=["the filter of publication other names column region", "the column list of publication other lacks column "
              "id", "publication of_inserts does not publish update, delete and truncate",
              "the server refuses updates and deletes, since it has no replica identity, such as a primary key"],
        fails=[("UPDATE orders SET region = 2", "Column used in the publication WHERE expression is not part of"),
               ("DELETE FROM lines", "Column list used by the publication does not cover the replica identity"),
               ("UPDATE notes SET id = 2", "does not have a replica identity and publishes updates")]),
    # A filter has no effect together with FOR TABLES IN SCHEMA, but the server still checks its columns.
    Case("schema_and_table", """
        CREATE TABLE orders (id integer PRIMARY KEY, region integer NOT NULL);
        INSERT INTO orders VALUES (1, 1);
        CREATE PUBLICATION one FOR TABLES IN SCHEMA public, TABLE orders WHERE (region = 1);
    """, {"orders": "refused"}, told=["the filter of publication one names column region"],
        fails=[("DELETE FROM orders", "Column used in the publication WHERE expression is not part of")]),
    # Publications that split the operations among them. In `other` the inserts of half of the rows are lost, and in
    # `unlike` the deletes; `same` is equivalent to one publication.
    Case("split_operations", """
        CREATE TABLE same (id integer PRIMARY KEY);
        CREATE TABLE unlike (id integer PRIMARY KEY);
        CREATE TABLE other (id integer PRIMARY KEY);
        CREATE TABLE inserted (id integer PRIMARY KEY);
        CREATE PUBLICATION added FOR TABLE same WHERE (id > 0), unlike, other WHERE (id > 0), inserted
            WITH (publish = 'insert');
        CREATE PUBLICATION changed FOR TABLE same WHERE (id > 0), unlike WHERE (id > 0), other WHERE (id <= 0)
            WITH (publish = 'update, delete, truncate');
        CREATE PUBLICATION rest FOR TABLE same WHERE (id <= 0);
    """, {"same": "sound", "unlike": "refused", "other": "not sound:", "inserted": "refused"},
        words=["-v", "subscriptions=one=added,changed two=rest"],
        told=["subscriber one takes publications added and changed, whose filters for update and delete differ from those",
              "publication added does not publish update, delete and truncate"]),
    # The root's publication does not publish inserts. The partition's publication does, and then no filter applies.
    Case("split_levels", """
        CREATE TABLE log (id bigint PRIMARY KEY) PARTITION BY RANGE (id);
        CREATE TABLE log_low PARTITION OF log FOR VALUES FROM (0) TO (100);
        CREATE PUBLICATION changed FOR TABLE log WHERE (id > 5)
            WITH (publish_via_partition_root, publish = 'update, delete, truncate');
        CREATE PUBLICATION added FOR TABLE log_low WHERE (id > 5) WITH (publish = 'insert');
    """, {"log_low": "not decided"}, words=["-v", "subscriptions=one=changed,added"]),
    # Row security policies keep no row from a stream.
    Case("row_security", """
        CREATE TABLE secrets (id integer PRIMARY KEY, owner text);
        ALTER TABLE secrets ENABLE ROW LEVEL SECURITY;
        ALTER TABLE secrets FORCE ROW LEVEL SECURITY;
        CREATE POLICY own ON secrets USING (owner = current_user);
        CREATE PUBLICATION low FOR TABLE secrets WHERE (id < 5);
        CREATE PUBLICATION high FOR TABLE secrets WHERE (id >= 5);
    """, {"secrets": "sound"}, told=["row-level security may keep rows from an initial copy"]),
    # A foreign key that is NULL references no row, so nothing refuses the row; under MATCH FULL a key that is NULL in
    # part is refused.
    Case("null_keys", """
        CREATE TABLE shops (region integer, number integer, PRIMARY KEY (region, number));
        CREATE TABLE sales (id integer PRIMARY KEY, region integer, number integer,
            FOREIGN KEY (region, number) REFERENCES shops);
        CREATE TABLE goods (id integer PRIMARY KEY, region integer NOT NULL, number integer,
            FOREIGN KEY (region, number) REFERENCES shops MATCH FULL);
        ALTER TABLE sales REPLICA IDENTITY FULL; ALTER TABLE goods REPLICA IDENTITY FULL;
        CREATE PUBLICATION one FOR TABLE shops, sales WHERE (number <= 5 AND region IS NOT NULL),
            goods WHERE (number <= 5);
        CREATE PUBLICATION two FOR TABLE sales WHERE (number > 5 OR region IS NULL), goods WHERE (number > 5);
    """, {"shops": "sound", "sales": "not sound:", "goods": "not sound:"}, refusing=["goods"],
        told=["but foreign key goods_region_number_fkey on region, number is not read"]),
    # A rule may redirect a row.
    Case("rules", """
        CREATE TABLE rows (id integer PRIMARY KEY);
        CREATE RULE nowhere AS ON INSERT TO rows WHERE id <= 0 DO INSTEAD NOTHING;
        CREATE PUBLICATION p FOR TABLE rows WHERE (id > 0);
    """, {"rows": "not sound:"}, refusing=["rows"], told=["rule nowhere is not read, and may change or refuse"]),
]
