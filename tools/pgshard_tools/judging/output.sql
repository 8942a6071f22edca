-- Settings with which psql prints only values for judge, whatever the user's own settings are.

\set QUIET on
\set ON_ERROR_STOP on
\set ECHO none
\timing off
\pset pager off
\pset expanded off
\pset format unaligned
\pset recordsep '\n'
\pset tuples_only on
