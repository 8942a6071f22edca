-- The tables of examples/shop.sql, as a subscriber has them before `pgshard serve` feeds it: empty.
CREATE TABLE orders (id bigint PRIMARY KEY, region integer, cents bigint NOT NULL);
CREATE TABLE rates (currency text PRIMARY KEY, millionths bigint NOT NULL);
