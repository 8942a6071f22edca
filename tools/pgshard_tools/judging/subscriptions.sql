-- Prints the subscriptions of a subscriber's database as one JSON text. Any role may read these columns.

\set QUIET on
\ir output.sql
BEGIN READ ONLY;
SET LOCAL search_path = pg_catalog;
-- For texts in UTF8, psql omits noncharacters of Unicode and invalid UTF8. If it is told that they are bytes, it prints
-- them completely.
SELECT CASE WHEN current_setting('server_encoding') IN ('UTF8', 'SQL_ASCII') THEN 'SQL_ASCII' ELSE 'UTF8' END AS encoding \gset
SET LOCAL client_encoding = :'encoding';
SET LOCAL lock_timeout = '5s';
SET LOCAL statement_timeout = '120s';
SELECT coalesce(pg_catalog.json_agg(pg_catalog.json_build_object(
    'name', subname, 'enabled', subenabled, 'slot', subslotname, 'publications', subpublications
) ORDER BY subname), '[]')
FROM pg_catalog.pg_subscription
WHERE subdbid = (SELECT oid FROM pg_catalog.pg_database WHERE datname = pg_catalog.current_database());
COMMIT;
