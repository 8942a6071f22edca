-- Orders go to one of two subscribers by region. Orders without a region go to neither: this sharding is not sound.
CREATE TABLE orders (id bigint PRIMARY KEY, region integer, cents bigint NOT NULL);
ALTER TABLE orders REPLICA IDENTITY FULL;

CREATE PUBLICATION europe FOR TABLE orders WHERE (region < 100);
CREATE PUBLICATION elsewhere FOR TABLE orders WHERE (region >= 100);

CREATE SUBSCRIPTION london CONNECTION 'host=london' PUBLICATION europe;
CREATE SUBSCRIPTION tokyo CONNECTION 'host=tokyo' PUBLICATION elsewhere;
