"""For each command, its seconds and its memory beside `cp`: `bench/time COMMAND`."""
