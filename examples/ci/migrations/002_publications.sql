-- Two publications that split the orders by region, and both carry the settings.
CREATE PUBLICATION europe FOR TABLE settings, orders WHERE (region < 100);
CREATE PUBLICATION elsewhere FOR TABLE settings, orders WHERE (region >= 100);
