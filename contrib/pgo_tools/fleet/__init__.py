"""The sum of many profiles: the tree of its parts, who runs them, and the manifest of what went in."""
