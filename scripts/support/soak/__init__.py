"""A soak of kept connections: clients and endpoints of all kinds at random, each request of which has
a target and a content of its own."""
