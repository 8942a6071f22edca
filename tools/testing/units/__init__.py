"""Tests of single modules of judge. unittest runs them, without a server."""
