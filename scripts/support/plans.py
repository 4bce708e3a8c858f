"""The file of a controller's plan."""
import json
import os
from collections.abc import Iterable, Sequence

from bg_switch_tools.controller.state.state_file import write_whole


class Plan:
    """A plan for the switch at a control port, in a folder. Its file is put in place whole."""

    def __init__(self, folder: str, control: int, **members: object) -> None:
        self.path = os.path.join(folder, "plan.json")
        self.told: dict[str, object] = {"control": control, **members}

    def write(self, revisions: Iterable[tuple[str, Sequence[int]]], **members: object) -> None:
        """Writes the plan with these revisions and their ports. Members that are given stay for
        later writes."""
        self.told.update(members)
        self.told["revisions"] = [{"name": name, "ports": list(ports)} for name, ports in revisions]
        self.write_text(json.dumps(self.told))

    def write_text(self, text: str) -> None:
        write_whole(self.path, text.encode())
