"""What has happened: the history of a plan's rollout, and what a controller knows of the rounds
before."""
