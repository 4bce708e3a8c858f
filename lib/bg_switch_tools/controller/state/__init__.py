"""The files that a controller and people keep beside a plan, but for the history."""
