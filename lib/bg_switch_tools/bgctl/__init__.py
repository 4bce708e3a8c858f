"""bin/bgctl: one command for an operator of the switch and of its controller. It stands on all
other packages."""
