"""Streams in which each byte is changed in turn, and how a subscriber takes them."""
