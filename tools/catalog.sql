-- Prints what a PostgreSQL 15 database publishes, in the grammar that pgshard reads. It changes nothing on the server.
--
--     psql -X -d shop -f tools/catalog.sql
--     psql -X -d shop -v subscriptions='london=europe tokyo=elsewhere,nowhere' -f tools/catalog.sql
--
-- The publisher's database does not contain the subscriptions. Without the variable, each publication has a
-- subscription with its own name; with the variable, only the subscriptions in it exist. Names in it are written as
-- they are stored; a name that contains white space, a comma, an equals sign or a double quote is written in double
-- quotes. `europe` is short for `europe=europe`.
--
-- The printed catalog differs from the server's only in the following:
-- * A column that no filter names, and whose type pgshard does not read, becomes text, with its type in a comment. Its
--   values can't decide where a row goes. A column of type varchar becomes text too, as which the server's operators
--   treat it.
-- * In filters, casts that change no value are removed if they are of an integer constant, or of a column to a wider
--   type; and = ANY (ARRAY[..]) and <> ALL (ARRAY[..]) become IN and NOT IN. Other forms stay as the server prints
--   them.
-- * An identity that the server can't use, since its index is dropped or deferrable, is NOTHING, which is equivalent.

\set QUIET on
\set ON_ERROR_STOP on
\set ECHO none
\timing off
\pset pager off
\pset expanded off
\pset format unaligned
\pset recordsep '\n'
\pset tuples_only on
\if :{?subscriptions}
\else
    \set subscriptions ''
\endif

BEGIN ISOLATION LEVEL REPEATABLE READ READ ONLY;
SET LOCAL search_path = pg_catalog;
SET LOCAL client_encoding = 'UTF8';
-- A backslash in a constant is not doubled, and names are quoted only if necessary.
SET LOCAL standard_conforming_strings = on;
SET LOCAL quote_all_identifiers = off;

WITH tables AS (
    SELECT c.oid, c.relkind, c.relispartition, c.relpartbound, c.relreplident, s.nspname AS schema,
           format('%I.%I', s.nspname, c.relname) AS name,
           pg_relation_is_publishable(c.oid) AND (
               EXISTS (SELECT FROM pg_publication WHERE puballtables)
               OR EXISTS (SELECT FROM pg_publication_rel WHERE prrelid = c.oid)
               OR EXISTS (SELECT FROM pg_publication_namespace WHERE pnnspid = s.oid)
           ) AS is_published
    FROM pg_class c JOIN pg_namespace s ON s.oid = c.relnamespace
    WHERE c.relkind IN ('r', 'p') AND c.relpersistence <> 't' AND c.oid >= 16384
),
published AS (
    SELECT * FROM tables WHERE is_published
),
columns AS (
    SELECT t.oid AS relation, a.attnum, a.atttypid, a.attnotnull, quote_ident(a.attname) AS name,
           format_type(a.atttypid, a.atttypmod) AS type,
           -- Searches the stored tree of the filter, since pg_depend also contains the columns of column lists.
           EXISTS (
               SELECT FROM pg_publication_rel r
               WHERE r.prrelid = t.oid AND r.prqual::text LIKE format('%%:varattno %s %%', a.attnum)
           ) AS is_filtered
    FROM published t JOIN pg_attribute a ON a.attrelid = t.oid
    WHERE a.attnum > 0 AND NOT a.attisdropped
),
indexes AS (
    SELECT i.indrelid AS relation, i.indisprimary, i.indisreplident, i.indisvalid AND i.indimmediate AS is_usable,
           quote_ident(c.relname) AS name,
           (
               SELECT string_agg(a.name, ', ' ORDER BY k.place)
               FROM unnest(i.indkey) WITH ORDINALITY AS k (attnum, place)
               JOIN columns a ON a.relation = i.indrelid AND a.attnum = k.attnum
               WHERE k.place <= i.indnkeyatts
           ) AS columns
    FROM pg_index i JOIN pg_class c ON c.oid = i.indexrelid
    WHERE i.indisprimary OR i.indisreplident
),

-- Filters are processed in three steps. First the server's text is split into tokens: a string that contains an
-- integer, with its type; a cast of a column; a string; a quoted name; and everything between these.
tokens AS (
    SELECT r.oid AS entry, r.prrelid AS relation, found.place, found.part[1] AS token
    FROM pg_publication_rel r, regexp_matches(
        pg_get_expr(r.prqual, r.prrelid),
        $$( '-?[0-9]+'::(?:smallint|integer|bigint)
          | \((?:[a-z_][a-z0-9_]*|"(?:[^"]|"")+")\)::(?:integer|bigint|text)
          | '(?:[^']|'')*'
          | "(?:[^"]|"")+"
          | [^'"(]+
          | \( )$$,
        'gx') WITH ORDINALITY AS found (part, place)
    WHERE r.prqual IS NOT NULL
),
wider_types (narrow, wide) AS (
    VALUES ('int2'::regtype, 'integer'), ('int2', 'bigint'), ('int4', 'bigint'), ('varchar', 'text')
),
-- Strings and names, which do not change, are replaced by numbers in the text that is rewritten, so that no form is
-- matched inside them.
kept AS (
    SELECT t.*, coalesce(c.name, t.token) AS text,
           CASE
               WHEN t.token ~ $$^'-?[0-9]+'::$$ THEN split_part(t.token, '''', 2)
               WHEN t.token LIKE '''%' THEN format('''%s''', t.place)
               WHEN t.token LIKE '"%' OR c.name IS NOT NULL THEN format('"%s"', t.place)
               ELSE t.token
           END AS mark
    FROM tokens t
    LEFT JOIN (columns c JOIN wider_types w ON w.narrow = c.atttypid)
        ON c.relation = t.relation AND t.token = format('(%s)::%s', c.name, w.wide)
),
rewritten AS (
    SELECT entry, not_in.text
    FROM (SELECT entry, string_agg(mark, '' ORDER BY place) AS text FROM kept GROUP BY entry) AS marked,
    -- A constant that may not fit the type of its cast keeps the cast, since the server would fail.
    LATERAL (SELECT regexp_replace(
        marked.text,
        $$\((-32768|-?(?:[0-2]?[0-9]{1,4}|3[01][0-9]{3}|32[0-6][0-9]{2}|327[0-5][0-9]|3276[0-7]))\)::smallint$$,
        '\1', 'g')) AS of_smallint (text),
    LATERAL (SELECT regexp_replace(of_smallint.text, '\((-?[0-9]{1,9})\)::integer', '\1', 'g')) AS of_integer (text),
    LATERAL (SELECT regexp_replace(of_integer.text, '\((-?[0-9]+)\)::bigint', '\1', 'g')) AS of_bigint (text),
    LATERAL (SELECT regexp_replace(of_bigint.text, '= ANY \(ARRAY\[([^][()]+)]\)', 'IN (\1)', 'g')) AS is_in (text),
    LATERAL (SELECT regexp_replace(is_in.text, '<> ALL \(ARRAY\[([^][()]+)]\)', 'NOT IN (\1)', 'g')) AS not_in (text)
),
filters AS (
    SELECT r.entry, string_agg(coalesce(k.text, found.part[1]), '' ORDER BY found.place) AS text
    FROM rewritten r
    CROSS JOIN regexp_matches(r.text, $$('[0-9]+'|"[0-9]+"|[^'"]+)$$, 'g') WITH ORDINALITY AS found (part, place)
    LEFT JOIN kept k ON k.entry = r.entry AND k.mark = found.part[1] AND k.mark ~ $$^['"]$$
    GROUP BY r.entry
),

elements AS (
    SELECT relation, attnum AS place, concat_ws(' ',
        name,
        CASE
            WHEN atttypid IN ('int2'::regtype, 'int4'::regtype, 'int8'::regtype, 'bool'::regtype, 'text'::regtype)
                THEN type
            WHEN is_filtered AND atttypid <> 'varchar'::regtype THEN type
            -- Stars and slashes are removed from the name of a type, so that it can't end the comment.
            ELSE format('text /* %s */', translate(type, '*/', ''))
        END,
        CASE WHEN attnotnull THEN 'NOT NULL' END
    ) AS text
    FROM columns
    UNION ALL
    SELECT relation, 10000, format('PRIMARY KEY (%s)', columns) FROM indexes WHERE indisprimary
),
entries AS (
    SELECT r.prpubid AS publication, 1 AS kind, t.name,
           concat('TABLE ', t.name, ' (' || listed.columns || ')', ' WHERE (' || f.text || ')') AS text
    FROM pg_publication_rel r
    JOIN published t ON t.oid = r.prrelid
    LEFT JOIN filters f ON f.entry = r.oid
    LEFT JOIN LATERAL (
        SELECT string_agg(c.name, ', ' ORDER BY c.attnum) AS columns
        FROM columns c
        WHERE c.relation = t.oid AND c.attnum = ANY (r.prattrs)
    ) AS listed ON true
    UNION ALL
    SELECT n.pnpubid, 2, s.nspname, format('TABLES IN SCHEMA %I', s.nspname)
    FROM pg_publication_namespace n JOIN pg_namespace s ON s.oid = n.pnnspid
),

-- The words in the variable, each with the subscription and its publications, quoted as they were given.
words AS (
    SELECT place, part[1] AS subscription, coalesce(part[2], part[1]) AS publications
    FROM regexp_matches(
        :'subscriptions', $$((?:[^\s="]|"(?:[^"]|"")*")*)(?:=((?:[^\s"]|"(?:[^"]|"")*")*))?$$, 'g'
    ) WITH ORDINALITY AS found (part, place)
    WHERE part[1] <> '' OR part[2] <> ''
),
taken AS (
    SELECT w.place, w.subscription, found.place AS publication_place, found.part[1] AS publication
    FROM words w
    LEFT JOIN regexp_matches(w.publications, $$((?:[^,"]|"(?:[^"]|"")*")+)$$, 'g')
        WITH ORDINALITY AS found (part, place) ON true
),
subscriptions AS (
    SELECT place, subscription, string_agg(publication, ', ' ORDER BY publication_place) AS publications
    FROM (
        SELECT place, publication_place,
               quote_ident(replace(regexp_replace(subscription, '^"(.*)"$', '\1'), '""', '"')) AS subscription,
               quote_ident(replace(regexp_replace(publication, '^"(.*)"$', '\1'), '""', '"')) AS publication
        FROM taken
        UNION ALL
        SELECT 0, 0, quote_ident(pubname), quote_ident(pubname) FROM pg_publication WHERE NOT EXISTS (SELECT FROM words)
    ) AS named
    GROUP BY place, subscription
),

schemas AS (
    SELECT schema FROM published
    UNION
    SELECT s.nspname FROM pg_publication_namespace n JOIN pg_namespace s ON s.oid = n.pnnspid
),
-- The index of a table's replica identity, if there is one. If it is the primary key, no statement is needed.
identities AS (
    SELECT CASE
        WHEN t.relreplident = 'f' THEN format('ALTER TABLE %s REPLICA IDENTITY FULL;', t.name)
        WHEN t.relreplident = 'i' AND i.is_usable THEN format(
            E'CREATE UNIQUE INDEX %2$s ON %1$s (%3$s);\nALTER TABLE %1$s REPLICA IDENTITY USING INDEX %2$s;',
            t.name, i.name, i.columns)
        ELSE format('ALTER TABLE %s REPLICA IDENTITY NOTHING;', t.name)
    END AS text
    FROM published t
    LEFT JOIN indexes i ON i.relation = t.oid
        AND CASE t.relreplident WHEN 'd' THEN i.indisprimary WHEN 'i' THEN i.indisreplident ELSE false END
    WHERE (t.relreplident <> 'd' OR i.name IS NOT NULL) AND (i.indisprimary AND i.is_usable) IS NOT TRUE
),
publications AS (
    SELECT concat(
        format('CREATE PUBLICATION %I', p.pubname),
        CASE WHEN p.puballtables THEN ' FOR ALL TABLES' END,
        (
            SELECT E' FOR\n    ' || string_agg(e.text, E',\n    ' ORDER BY e.kind, e.name COLLATE "C")
            FROM entries e
            WHERE e.publication = p.oid
        ),
        ' WITH (' || nullif(concat_ws(', ', published.publish, published.via_root), '') || ')',
        ';'
    ) AS text
    FROM pg_publication p, LATERAL (
        SELECT CASE WHEN NOT (p.pubinsert AND p.pubupdate AND p.pubdelete AND p.pubtruncate) THEN
                   format('publish = %L', concat_ws(', ',
                       CASE WHEN p.pubinsert THEN 'insert' END, CASE WHEN p.pubupdate THEN 'update' END,
                       CASE WHEN p.pubdelete THEN 'delete' END, CASE WHEN p.pubtruncate THEN 'truncate' END))
               END AS publish,
               CASE WHEN p.pubviaroot THEN 'publish_via_partition_root = true' END AS via_root
    ) AS published
),
statements (kind, place, text) AS (
    SELECT 1, 0, '-- not published: ' || translate(name, E'\n\r', '  ') FROM tables WHERE NOT is_published
    UNION ALL
    SELECT 2, 0, format('CREATE SCHEMA %I;', schema) FROM schemas WHERE schema <> 'public'
    UNION ALL
    SELECT 3, 0, format(E'CREATE TABLE %s (\n    %s\n)%s;', t.name,
        (SELECT string_agg(e.text, E',\n    ' ORDER BY e.place) FROM elements e WHERE e.relation = t.oid),
        ' PARTITION BY ' || pg_get_partkeydef(t.oid))
    FROM published t
    WHERE NOT t.relispartition
    UNION ALL
    SELECT 3, 1, format('CREATE TABLE %s PARTITION OF %s %s%s;', t.name, i.inhparent::regclass,
        pg_get_expr(t.relpartbound, t.oid), ' PARTITION BY ' || pg_get_partkeydef(t.oid))
    FROM published t JOIN pg_inherits i ON i.inhrelid = t.oid
    WHERE t.relispartition
    UNION ALL
    SELECT 4, 0, text FROM identities
    UNION ALL
    SELECT 5, 0, text FROM publications
    UNION ALL
    SELECT 6, place, format('CREATE SUBSCRIPTION %s CONNECTION %L PUBLICATION %s;', subscription, '', publications)
    FROM subscriptions
)
SELECT text FROM statements ORDER BY kind, place, text COLLATE "C";
COMMIT;
