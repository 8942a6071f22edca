-- Tables and publications for a PostgreSQL 15 server: createdb shop; psql -d shop -f examples/server.sql
-- Orders are split by date, which leaves one day to nobody, and customers by number.
CREATE TABLE orders (id uuid PRIMARY KEY, region text, placed date NOT NULL);
ALTER TABLE orders REPLICA IDENTITY FULL;
CREATE TABLE customers (id bigint PRIMARY KEY CHECK (id > 0), name text);
CREATE TABLE audit (id bigint);

CREATE PUBLICATION archive FOR TABLE orders WHERE (placed < '2024-01-01'), customers WHERE (id % 2 = 0);
CREATE PUBLICATION current FOR TABLE orders WHERE (placed > '2024-01-01'), customers WHERE (id % 2 = 1);
