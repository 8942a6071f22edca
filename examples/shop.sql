-- Orders go to one of two subscribers by region; orders without a region go to the second. All rates go to the second
-- subscriber too.
CREATE TABLE orders (id bigint PRIMARY KEY, region integer, cents bigint NOT NULL);
ALTER TABLE orders REPLICA IDENTITY FULL;
CREATE TABLE rates (currency text PRIMARY KEY, millionths bigint NOT NULL);

CREATE PUBLICATION europe FOR TABLE orders WHERE (region < 100);
CREATE PUBLICATION elsewhere FOR TABLE orders WHERE (region >= 100), rates;
CREATE PUBLICATION nowhere FOR TABLE orders WHERE (region IS NULL);

CREATE SUBSCRIPTION london CONNECTION 'host=london' PUBLICATION europe;
CREATE SUBSCRIPTION tokyo CONNECTION 'host=tokyo' PUBLICATION elsewhere, nowhere;
