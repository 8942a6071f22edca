"""A plain model of what pgshard answers, written from the rules of the formats and not from its code.

Tables are dictionaries, logs are lists, and filters are tuples. Nothing here parses a catalog: cases are created as
data, and printed as text for the program.
"""
