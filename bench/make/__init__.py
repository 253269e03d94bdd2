"""Files to try commands on: large ones, and small ones that were changed at random. Each call makes the same ones."""
