"""The session of docs/FLEET.md looks first at what is in its way: a port that something listens at,
and a folder with files of another run."""
import pathlib
import subprocess
import tempfile
import unittest

from support.endpoints import Endpoint, by_target
from support.pages import blocks_of, expected_of, with_places
from tests.fake_port import free_port
from tests.live.live_fleet_pages import PAGE, PORTS, TITLE
from tests.tool_runs import WAIT


class First(unittest.TestCase):
    def setUp(self) -> None:
        self.folder = pathlib.Path(self.enterContext(tempfile.TemporaryDirectory()))
        self.ports = dict(zip(PORTS, (str(free_port()) for _ in PORTS)))
        page = with_places(PAGE.read_text(encoding="utf-8"), self.ports, str(self.folder))
        self.blocks = blocks_of(page, TITLE)

    def run_first(self) -> tuple[int, str]:
        """The first block, and a word after it that comes only if the shell goes on."""
        script = f"{self.blocks[0]}\necho goes on"
        ran = subprocess.run(
            ["bash", "-c", script], capture_output=True, text=True, timeout=WAIT, check=False
        )
        return ran.returncode, ran.stdout

    def test_nothing_is_in_the_way(self) -> None:
        self.assertEqual(self.run_first(), (0, "nothing is in the way\ngoes on\n"))
        self.assertEqual(expected_of(self.blocks[0]), ["nothing is in the way"])

    def test_each_port(self) -> None:
        """The gate moves each port of the session, and the first block looks at each."""
        for name in (PORTS[0], PORTS[5], PORTS[-1]):
            with self.subTest(name):
                port = self.ports[name]
                server = Endpoint(by_target(b"other"), int(port))
                self.addCleanup(server.stop)
                self.assertEqual(self.run_first(), (1, f"in the way: port {port}\n"))
                server.stop()
        [listed] = [line for line in self.blocks[0].splitlines() if line.startswith("ports=")]
        self.assertEqual(
            listed.removeprefix("ports='").rstrip("'").split(), list(self.ports.values())
        )

    def test_a_folder_of_another_run(self) -> None:
        (self.folder / "etcd.log").touch()
        self.assertEqual(self.run_first(), (1, "in the way: etcd.log\n"))


if __name__ == "__main__":
    unittest.main()
