"""The tools around a running `bg_switch serve`: a package for each tool, and `switch`, on which
they stand."""
VERSION = "0.1.0"  # that of the switch, as `bg_switch --version` prints it
