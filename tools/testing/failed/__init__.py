"""Whole runs of the built program, in each of which a read or a write fails."""
