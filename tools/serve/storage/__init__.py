"""Stable storage: the file of inputs of a machine, and who waits for its syncs."""
