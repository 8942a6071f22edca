"""Finds where the program creates a value that reports that memory or a device was refused: the modules of
tools/refusals_made."""
