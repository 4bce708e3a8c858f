"""What the commands of a person do in a fleet."""
