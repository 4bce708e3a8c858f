"""One rollout over several machines: the record that they share, the leader that writes it, and the
agent of each machine."""
