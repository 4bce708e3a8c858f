"""The model of a fleet, and what checks it."""
