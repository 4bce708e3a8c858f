"""Starts a tool by its name: `python3 lib operator 8082 status`."""
import sys

from bg_switch_tools.bgctl import tools

if __name__ == "__main__":
    sys.exit(tools.main(sys.argv[1:]))
