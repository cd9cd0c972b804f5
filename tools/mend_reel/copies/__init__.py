"""Which copies go together, where they differ, and whose bytes serve."""
