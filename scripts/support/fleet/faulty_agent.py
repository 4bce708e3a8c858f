"""An agent with a planted fault: python3 -m support.fleet.faulty_agent FAULT FLEET.json. A drill
has to find it by a rule."""
import sys

import support  # noqa: F401 - it tells where the tools' package is
from bg_switch_tools.bgctl import tools
from support.fleet.planted import PLANTED


def main(words: list[str]) -> int:
    fault, path = words
    with PLANTED[fault].plant():
        return tools.main(["fleet", path, "agent"])


if __name__ == "__main__":
    sys.exit(main(sys.argv[1:]))
