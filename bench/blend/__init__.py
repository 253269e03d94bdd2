"""A model of the `.blend` format by the rules of docs/FORMAT.md. It knows nothing of the program."""
