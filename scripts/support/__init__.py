"""What checks over sockets, drills, benches and tests share: the running switch, endpoints, clients,
operators, messages, ports and checks."""
import os
import pathlib
import sys

TOP = pathlib.Path(__file__).resolve().parents[2]
# Another program can be tried by hand in its place.
PROGRAM = os.environ.get("BG_SWITCH_PROGRAM", str(TOP / "bin" / "bg_switch"))

# The tools' package, which reads reports and speaks to the control port here too.
sys.path.insert(0, str(TOP / "lib"))
