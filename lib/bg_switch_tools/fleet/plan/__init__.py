"""The plan of a fleet, and what each machine adds to it."""
