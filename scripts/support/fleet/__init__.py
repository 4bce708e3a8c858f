"""The drill of a fleet: hosts with etcd, a switch, nginx, endpoints and an agent, faults, and
checks of what was recorded."""
