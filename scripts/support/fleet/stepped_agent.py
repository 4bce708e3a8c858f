"""An agent whose wall clock a drill steps: python3 -m support.fleet.stepped_agent FILE FLEET.json. It
is a part of the process alone, since the machine has one wall clock for all."""
import importlib
import pathlib
import sys
import time
from unittest import mock

import support  # noqa: F401 - it tells where the tools' package is
from support.fleet.stepped_clock import stepped


def main(words: list[str]) -> int:
    file, fleet_file = words
    # before the tools are imported, some of which keep the function
    with mock.patch.object(time, "time", stepped(pathlib.Path(file))):
        tools = importlib.import_module("bg_switch_tools.bgctl.tools")
        status: int = tools.main(["fleet", fleet_file, "agent"])
        return status


if __name__ == "__main__":
    sys.exit(main(sys.argv[1:]))
