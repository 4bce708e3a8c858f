"""The runs of a plan's analyses."""
