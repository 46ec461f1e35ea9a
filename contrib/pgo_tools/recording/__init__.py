"""What pgo-profile finds out of its inputs: what they are, how they were loaded, and signs that they do not fit."""
