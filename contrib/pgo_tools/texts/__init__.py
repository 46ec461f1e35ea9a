"""The texts of pgo: one reader for each, and what they share: names and numbers."""
