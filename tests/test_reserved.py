"""Ports that belong to one process until it ends."""
import multiprocessing
import socket
import unittest

from support.reserved import HOST, named, reserved, reserved_block

FORK = multiprocessing.get_context("fork")
PORTS = range(9_900, 9_920)


def is_taken_here(port: int) -> bool:
    name = named(port)
    if name:
        name.close()
    return name is None


class Reserved(unittest.TestCase):
    def test_a_port_is_reserved_until_its_process_ends(self) -> None:
        here, there = FORK.Pipe()

        def reserve() -> None:
            there.send(reserved(PORTS))
            there.recv()

        process = FORK.Process(target=reserve)
        process.start()
        port: int = here.recv()
        self.assertTrue(is_taken_here(port))
        here.send(None)
        process.join()
        self.assertFalse(is_taken_here(port))

    def test_no_port_is_given_twice(self) -> None:
        ports = range(9_920, 9_930)
        self.assertEqual({reserved(ports) for _ in ports}, set(ports))

    def test_nothing_listens_there(self) -> None:
        ports = range(9_930, 9_932)
        with socket.create_server((HOST, ports[0])):
            self.assertEqual(reserved(ports), ports[1])

    def test_a_block_leaves_no_port_reserved_that_it_does_not_have(self) -> None:
        ports = range(9_940, 9_946)
        with socket.create_server((HOST, ports[2])):
            self.assertEqual(reserved_block(ports, 3), ports[3])
            self.assertEqual({reserved(ports[:2]), reserved(ports[:2])}, set(ports[:2]))


if __name__ == "__main__":
    unittest.main()
