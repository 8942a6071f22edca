"""Whole runs of the built program, in each of which one request for memory is refused, or one and all after it."""
