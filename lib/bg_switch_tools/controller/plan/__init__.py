"""A plan: its values, how its file is read, and what is wrong with it."""
