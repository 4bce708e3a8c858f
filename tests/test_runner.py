"""The runner of the tests, `python3 -m tests`."""
import math
import unittest

from tests.__main__ import start


class Runner(unittest.TestCase):
    def test_a_class_that_ends_at_its_limit(self) -> None:
        """Nothing is sent to a process that has ended: another one may have its number."""
        run = start("a class", unittest.TestSuite())
        self.addCleanup(run.told.close)
        run.process.join()
        run.begun = -math.inf
        self.assertTrue(run.has_ended())
        self.assertTrue(run.result().has_passed)
