"""The clients of the live tests that upload: what they are told of the end of their connection."""
import contextlib
import socket
import time
import unittest
from collections.abc import Iterator

from support.upload_endpoint import RESETS, UploadEndpoint
from support.uploads import BODY, LONGEST, Delivered, by_length, sent_and_received

# The system tells a reset to the call that comes first, which is one that sends in about half of them.
RUNS = 50


class OneThatTakesNothing(UploadEndpoint):
    """An endpoint that ends its side at once, and takes nothing."""

    def serve(self, connection: socket.socket) -> None:
        with connection:
            connection.sendall(b"over")
            connection.shutdown(socket.SHUT_WR)
            self.wait()


@contextlib.contextmanager
def running(endpoint: UploadEndpoint) -> Iterator[int]:
    """The port of an endpoint that is stopped after the block."""
    try:
        yield endpoint.port
    finally:
        endpoint.stop()


class Ends(unittest.TestCase):
    def test_a_reset_is_told_to_a_client_that_still_sends(self) -> None:
        with running(UploadEndpoint()) as port:
            for _ in range(RUNS):
                got = sent_and_received(port, by_length(RESETS, BODY))
                self.assertEqual(got, Delivered(b"", True))

    def test_a_client_that_still_sends_ends_with_its_peer(self) -> None:
        with running(OneThatTakesNothing()) as port:
            begun = time.monotonic()
            got = sent_and_received(port, by_length(b"/", BODY))
            self.assertEqual(got, Delivered(b"over", False))
            # a sender that nobody wakes waits for as long
            self.assertLess(time.monotonic() - begun, LONGEST / 2)


if __name__ == "__main__":
    unittest.main()
