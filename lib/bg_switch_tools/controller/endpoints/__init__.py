"""The endpoints of revisions: their probes, and the commands that start and stop them."""
