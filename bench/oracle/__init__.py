"""For each command, what it has to make and to print, by the model of `blend` alone."""
