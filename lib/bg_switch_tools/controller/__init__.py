"""bin/controller: it runs a rollout by a plan, and keeps its state and the history beside the
plan."""
