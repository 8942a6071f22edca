"""Finds which definitions give a theorem its meaning: the modules of tools/reading."""
