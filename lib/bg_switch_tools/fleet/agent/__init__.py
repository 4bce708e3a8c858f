"""The agent of a machine: its turns at the store, its rounds at the switch, and its candidate for the
leader."""
