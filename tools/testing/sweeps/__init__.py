"""Compares runs of pgshard with the model for every value of each dimension of an input, not only for the least and the
greatest."""
