"""The values of a fleet's keys, what its leader decides by them, and how the fleet stands."""
