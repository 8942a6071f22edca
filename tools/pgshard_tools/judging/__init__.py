"""The modules of tools/judge, which reads a server, rewrites its filters, and has pgshard decide."""
