"""bin/operator: an alias of bgctl for scripts, which names the control port first."""
