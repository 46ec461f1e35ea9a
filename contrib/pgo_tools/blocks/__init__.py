"""The blocks of a program, from its map of basic blocks or from its code, and their order."""
