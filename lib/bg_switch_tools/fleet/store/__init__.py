"""The store of a fleet: what the fleet asks of it, and etcd as such a store."""
