"""For each command, whether it does what its oracle says: `bench/check COMMAND`."""
