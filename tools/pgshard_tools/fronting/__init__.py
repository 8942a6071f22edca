"""The modules of tools/front."""
