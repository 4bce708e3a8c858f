"""The checks of the running switch over sockets. scripts/live.sh runs them; `python3 -m tests` does
not."""
