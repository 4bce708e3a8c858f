"""Ports that nothing listens at."""
import os
import socket
import unittest
import unittest.mock

from support.ports import HOST, is_free

PORT = 9_950


class IsFree(unittest.TestCase):
    def test_a_port_with_a_listener_is_not(self) -> None:
        with socket.create_server((HOST, PORT)):
            self.assertFalse(is_free(PORT))
        self.assertTrue(is_free(PORT))

    def test_a_copy_of_its_socket_keeps_no_listener_away(self) -> None:
        """A process that was forked meanwhile has such a copy until it runs its program."""
        copies: list[int] = []
        close = socket.socket.close

        def copied(one: socket.socket) -> None:
            copies.append(os.dup(one.fileno()))
            close(one)

        with unittest.mock.patch.object(socket.socket, "close", copied):
            self.assertTrue(is_free(PORT))
        try:
            self.assertTrue(copies)
            with socket.create_server((HOST, PORT)):
                self.assertFalse(is_free(PORT))
        finally:
            for copy in copies:
                os.close(copy)


if __name__ == "__main__":
    unittest.main()
