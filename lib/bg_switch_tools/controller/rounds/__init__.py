"""The rounds of a controller, and their steps."""
