"""Tests of `pgshard serve` with clients written here, and with real ones through tools/front."""
