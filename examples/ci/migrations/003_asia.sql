-- A third publication takes some of the regions of the second one.
CREATE PUBLICATION asia FOR TABLE settings, orders WHERE (region BETWEEN 100 AND 199);
ALTER PUBLICATION elsewhere SET TABLE settings, orders WHERE (region >= 200);
