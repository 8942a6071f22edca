"""The release in the repository: its manifest, and its comparison with the sources."""
