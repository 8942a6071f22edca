-- Prints what judge needs to know about a database, as one JSON text. It changes nothing on the server, and needs no
-- privileges.

\set QUIET on
\ir output.sql
-- The search path may find operators of the database before the server's own.
SELECT pg_catalog.int4ge(:SERVER_VERSION_NUM, 150000) AND pg_catalog.int4lt(:SERVER_VERSION_NUM, 190000) AS is_judged \gset
\if :is_judged
\else
    \echo '{"version":' :SERVER_VERSION_NUM '}'
    \quit
\endif

-- With the variable `within`, a transaction is already open; its own locks do not matter.
\if :{?within}
\else
    BEGIN ISOLATION LEVEL REPEATABLE READ READ ONLY;
\endif
SET LOCAL search_path = pg_catalog;
-- For texts in UTF8, psql omits noncharacters of Unicode and invalid UTF8. If it is told that they are bytes, it prints
-- them completely.
SELECT CASE WHEN current_setting('server_encoding') IN ('UTF8', 'SQL_ASCII') THEN 'SQL_ASCII' ELSE 'UTF8' END AS encoding \gset
SET LOCAL client_encoding = :'encoding';
-- Nothing has to wait for long, since a locked table is read without the texts that would wait for the lock.
SET LOCAL lock_timeout = '5s';
SET LOCAL statement_timeout = '120s';
-- Constants are printed in one form, whatever the role's settings are.
SET LOCAL standard_conforming_strings = on;
SET LOCAL quote_all_identifiers = off;
SET LOCAL timezone = 'UTC';
SET LOCAL datestyle = 'ISO, YMD';
SET LOCAL intervalstyle = 'postgres';
SET LOCAL bytea_output = 'hex';
SET LOCAL extra_float_digits = 1;

-- Columns of catalogs in later versions. PostgreSQL 18 has constraints that are not enforced, and publications that
-- publish generated columns.
SELECT bool_or(attrelid = 'pg_constraint'::regclass AND attname = 'conenforced') AS has_enforced,
       bool_or(attrelid = 'pg_publication'::regclass AND attname = 'pubgencols') AS has_generated
FROM pg_attribute WHERE attrelid IN ('pg_constraint'::regclass, 'pg_publication'::regclass) AND NOT attisdropped \gset
\if :has_enforced
    \set is_enforced 'conenforced'
\else
    \set is_enforced 'true'
\endif
\if :has_generated
    \set generated 'p.pubgencols'
\else
    \set generated 'NULL'
\endif

-- Tables on which a session holds or awaits a lock for which the texts of filters and constraints would have to wait.
WITH locked AS (
    SELECT DISTINCT relation FROM pg_locks
    WHERE locktype = 'relation' AND mode = 'AccessExclusiveLock' AND pid IS DISTINCT FROM pg_backend_pid()
        AND database = (SELECT oid FROM pg_database WHERE datname = current_database())
),
tables AS (
    SELECT c.oid, s.nspname AS schema, c.relname AS name, c.relkind AS kind, c.relpersistence AS persistence,
           c.relreplident AS identity, pg_relation_is_publishable(c.oid) AS is_publishable, ancestors.oids AS ancestors,
           c.relrowsecurity AS has_row_security,
           EXISTS (SELECT FROM locked l WHERE l.relation = ANY (ancestors.oids || c.oid)) AS is_locked
    FROM pg_class c JOIN pg_namespace s ON s.oid = c.relnamespace,
    LATERAL (SELECT coalesce(array_agg(a.relid::oid ORDER BY a.place), '{}') AS oids
             FROM pg_partition_ancestors(c.oid) WITH ORDINALITY AS a (relid, place) WHERE a.relid <> c.oid) AS ancestors
    WHERE c.relkind IN ('r', 'p', 'f') AND c.relpersistence <> 't' AND c.oid >= 16384
),
-- A partition of which the server sends nothing is read if a table above it is published, and so is an unlogged root.
published AS (
    SELECT *, EXISTS (SELECT FROM pg_publication WHERE puballtables AND (t.is_publishable OR t.ancestors <> '{}'
                                                                       OR t.kind = 'p'))
        OR EXISTS (SELECT FROM pg_publication_rel r WHERE r.prrelid = t.oid OR r.prrelid = ANY (t.ancestors))
        OR EXISTS (SELECT FROM pg_publication_namespace n JOIN pg_class c ON c.relnamespace = n.pnnspid
                   WHERE c.oid = ANY (t.ancestors) OR c.oid = t.oid AND (t.is_publishable OR t.kind = 'p'))
        AS is_published
    FROM tables t
),
-- CHECKs and generated columns that call operators other than the server's own. The texts of IS DISTINCT FROM, NULLIF
-- and CASE do not name their operators.
calling_others AS (
    SELECT d.classid AS kind, d.objid AS caller FROM pg_depend d JOIN pg_operator o ON o.oid = d.refobjid
    WHERE d.classid IN ('pg_constraint'::regclass, 'pg_attrdef'::regclass)
        AND d.refclassid = 'pg_operator'::regclass AND o.oprnamespace <> 'pg_catalog'::regnamespace
),
columns AS (
    SELECT a.attrelid AS relation, json_agg(json_build_object(
        'number', a.attnum, 'name', a.attname, 'quoted', quote_ident(a.attname),
        -- In PostgreSQL 18 a NOT NULL constraint may be NOT VALID: older rows need not satisfy it.
        'not_null', a.attnotnull AND NOT EXISTS (SELECT FROM pg_constraint k WHERE k.conrelid = a.attrelid
            AND k.contype = 'n' AND a.attnum = ANY (k.conkey) AND NOT k.convalidated),
        'type', CASE WHEN ts.nspname = 'pg_catalog' THEN y.typname ELSE format('%s.%s', ts.nspname, y.typname) END,
        'modifier', a.atttypmod, 'written', format_type(a.atttypid, a.atttypmod), 'kind', y.typtype,
        'base', CASE WHEN y.typtype = 'd' THEN format_type(y.typbasetype, y.typtypmod) END,
        'label', (SELECT e.enumlabel FROM pg_enum e WHERE e.enumtypid = y.oid ORDER BY e.enumsortorder LIMIT 1),
        'labels', (SELECT json_agg(e.enumlabel ORDER BY e.enumsortorder) FROM pg_enum e WHERE e.enumtypid = y.oid),
        'generated', a.attgenerated <> '', 'is_virtual', a.attgenerated = 'v', 'identity', a.attidentity = 'a',
        'generation', CASE WHEN a.attgenerated <> '' AND NOT t.is_locked THEN (
            SELECT pg_get_expr(d.adbin, d.adrelid) FROM pg_attrdef d
            WHERE d.adrelid = a.attrelid AND d.adnum = a.attnum) END,
        'is_own', NOT EXISTS (SELECT FROM pg_attrdef d JOIN calling_others o ON o.caller = d.oid AND o.kind = 'pg_attrdef'::regclass
            WHERE d.adrelid = a.attrelid AND d.adnum = a.attnum),
        -- The name of a collation that was created in the database is preceded by its schema, both in quotes.
        'collation', CASE WHEN a.attcollation <> 0 THEN CASE WHEN l.collnamespace = 'pg_catalog'::regnamespace
            THEN l.collname ELSE format('"%s"."%s"', replace(ls.nspname, '"', '""'), replace(l.collname, '"', '""'))
        END END,
        'is_deterministic', coalesce(l.collisdeterministic, true)
    ) ORDER BY a.attnum) AS listed
    FROM published t
    JOIN pg_attribute a ON a.attrelid = t.oid AND t.is_published AND a.attnum > 0 AND NOT a.attisdropped
    JOIN pg_type y ON y.oid = a.atttypid JOIN pg_namespace ts ON ts.oid = y.typnamespace
    LEFT JOIN pg_collation l ON l.oid = a.attcollation LEFT JOIN pg_namespace ls ON ls.oid = l.collnamespace
    GROUP BY a.attrelid
),
indexes AS (
    SELECT i.indrelid AS relation, i.indisprimary, i.indisreplident, i.indisvalid AND i.indimmediate AS is_usable,
           (SELECT json_agg(k.number ORDER BY k.place)
            FROM unnest(i.indkey) WITH ORDINALITY AS k (number, place) WHERE k.place <= i.indnkeyatts) AS numbers
    FROM pg_index i JOIN published t ON t.oid = i.indrelid AND t.is_published
    WHERE i.indisprimary OR i.indisreplident
),
constraints AS (
    SELECT conrelid AS relation, contype, json_agg(json_build_object(
        'name', conname, 'text', CASE WHEN NOT t.is_locked THEN pg_get_expr(conbin, conrelid) END,
        'is_valid', convalidated, 'numbers', conkey, 'match', confmatchtype,
        'is_own', NOT EXISTS (SELECT FROM calling_others o
            WHERE o.kind = 'pg_constraint'::regclass AND o.caller = pg_constraint.oid)
    ) ORDER BY conname) AS listed
    FROM pg_constraint JOIN published t ON t.oid = conrelid AND t.is_published
    WHERE contype IN ('c', 'f') AND :is_enforced
    GROUP BY conrelid, contype
),
described AS (
    SELECT json_build_object(
        'oid', t.oid::bigint, 'schema', t.schema, 'name', t.name, 'quoted', format('%I.%I', t.schema, t.name),
        'kind', t.kind, 'is_unlogged', t.persistence = 'u', 'is_publishable', t.is_publishable, 'is_locked', t.is_locked,
        'has_row_security', t.has_row_security, 'ancestors', t.ancestors::bigint[], 'identity', t.identity,
        'columns', coalesce(c.listed, '[]'), 'has_dropped', EXISTS (
            SELECT FROM pg_attribute a WHERE a.attrelid = t.oid AND a.attnum > 0 AND a.attisdropped),
        'identity_numbers', (
            SELECT i.numbers FROM indexes i
            WHERE i.relation = t.oid AND i.is_usable
                AND CASE t.identity WHEN 'd' THEN i.indisprimary WHEN 'i' THEN i.indisreplident ELSE false END
        ),
        'key_numbers', (
            SELECT i.numbers FROM indexes i WHERE i.relation = t.oid AND i.is_usable AND i.indisprimary),
        'partition', CASE WHEN NOT t.is_locked THEN pg_get_partition_constraintdef(t.oid) END,
        'checks', coalesce((SELECT listed FROM constraints k WHERE k.relation = t.oid AND contype = 'c'), '[]'),
        'references', coalesce((SELECT listed FROM constraints k WHERE k.relation = t.oid AND contype = 'f'), '[]'),
        'triggers', coalesce((
            SELECT json_agg(g.tgname ORDER BY g.tgname) FROM pg_trigger g
            WHERE g.tgrelid = t.oid AND NOT g.tgisinternal AND g.tgenabled <> 'D' AND g.tgtype & 2 <> 0
        ), '[]'),
        'rules', coalesce((
            SELECT json_agg(w.rulename ORDER BY w.rulename) FROM pg_rewrite w
            WHERE w.ev_class = t.oid AND w.ev_type = '3' AND w.ev_enabled <> 'D'
        ), '[]')
    ) AS one, t.schema, t.name
    FROM published t LEFT JOIN columns c ON c.relation = t.oid
    WHERE t.is_published
),
publications AS (
    SELECT json_build_object(
        'name', p.pubname, 'quoted', quote_ident(p.pubname), 'all', p.puballtables, 'via_root', p.pubviaroot,
        'generated', :generated,
        'operations', array_remove(ARRAY[
            CASE WHEN p.pubinsert THEN 'insert' END, CASE WHEN p.pubupdate THEN 'update' END,
            CASE WHEN p.pubdelete THEN 'delete' END, CASE WHEN p.pubtruncate THEN 'truncate' END], NULL),
        'entries', coalesce((
            SELECT json_agg(json_build_object(
                'oid', r.prrelid::bigint, 'numbers', r.prattrs::int2[],
                'filter', CASE WHEN NOT t.is_locked THEN pg_get_expr(r.prqual, r.prrelid) END))
            FROM pg_publication_rel r JOIN tables t ON t.oid = r.prrelid WHERE r.prpubid = p.oid), '[]'),
        'schemas', coalesce((
            SELECT json_agg(s.nspname) FROM pg_publication_namespace n JOIN pg_namespace s ON s.oid = n.pnnspid
            WHERE n.pnpubid = p.oid), '[]')
    ) AS one, p.pubname
    FROM pg_publication p
)
SELECT json_build_object(
    'version', :SERVER_VERSION_NUM,
    'database', current_database(),
    'tables', coalesce((SELECT json_agg(one ORDER BY schema COLLATE "C", name COLLATE "C") FROM described), '[]'),
    'unpublished', coalesce((
        SELECT json_agg(format('%s.%s', schema, name) ORDER BY schema COLLATE "C", name COLLATE "C")
        FROM published WHERE NOT is_published AND kind <> 'f'), '[]'),
    'publications', coalesce((SELECT json_agg(one ORDER BY pubname COLLATE "C") FROM publications), '[]'),
    'slots', coalesce((
        SELECT json_agg(json_build_object('name', slot_name, 'active', active))
        FROM pg_replication_slots WHERE database = current_database() AND plugin = 'pgoutput'), '[]'),
    -- Who is connected, and what was requested, which is NULL if the role may not see it.
    'walsenders', coalesce((
        SELECT json_agg(json_build_object('slot', s.slot_name, 'query', CASE WHEN a.backend_type IS NOT NULL THEN
                                                                             a.query END) ORDER BY s.slot_name)
        FROM pg_replication_slots s JOIN pg_stat_activity a ON a.pid = s.active_pid
        WHERE s.database = current_database() AND s.plugin = 'pgoutput' AND (
            a.backend_type IS NULL OR a.backend_type = 'walsender' AND a.query LIKE 'START\_REPLICATION%')
    ), '[]')
);
\if :{?within}
\else
    COMMIT;
\endif
