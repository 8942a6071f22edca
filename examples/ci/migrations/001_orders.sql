-- The tables, which a base branch has already.
CREATE TABLE orders (
    id integer PRIMARY KEY,
    region integer NOT NULL CHECK (region >= 0),
    placed date NOT NULL
);
ALTER TABLE orders REPLICA IDENTITY FULL;
CREATE TABLE settings (name text PRIMARY KEY, value text);
