"""Explains the output of a run of pgshard in sentences, with positions in the input."""
