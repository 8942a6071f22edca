"""The Python tools of pgshard: judge, front, and the explanations that the script pgshard prints."""
