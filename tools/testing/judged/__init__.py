"""Tests of what judge rewrites, and of what it says about databases for which the right answers were worked out by
hand."""
