"""An attack on judge: random databases whose rows are read from the logical slots of a server."""
