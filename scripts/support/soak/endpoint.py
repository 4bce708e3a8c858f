"""An endpoint of a soak in a process of its own: NAME PORT FILE SEED. It keeps its connections, does
what the targets ask for, and writes the method and the target of each request that it has read whole
into the file at once, so that nothing is lost when it is killed."""
import asyncio
import os
import random
import socket
import struct
import sys

from support.messages import response
from support.ports import HOST
from support.soak import contents
from support.soak.contents import content_of, named_by

BACKLOG = 4096
LATE = (0.0, 0.05)  # seconds until a late answer
SOON = (0.0, 0.004)  # seconds after which an idle connection is closed at the worst moment
PIECE = 4_000  # bytes of a chunk
UNASKED = response(b"nobody asked for this")


class SoakEndpoint:
    """Serves connections, and notes the requests."""

    def __init__(self, notes: str, seed: int) -> None:
        self.notes = os.open(notes, os.O_WRONLY | os.O_APPEND | os.O_CREAT)
        self.chance = random.Random(seed)

    async def serve(self, reader: asyncio.StreamReader, writer: asyncio.StreamWriter) -> None:
        try:
            while await self.serve_one(reader, writer):
                pass
        except (asyncio.IncompleteReadError, OSError):
            pass
        except ValueError as error:
            os.write(self.notes, b"MALFORMED %s\n" % str(error).encode())
        finally:
            writer.close()

    async def serve_one(self, reader: asyncio.StreamReader, writer: asyncio.StreamWriter) -> bool:
        """Answers a request. Gives whether the connection stays."""
        head = await reader.readuntil(b"\r\n\r\n")
        line, *fields = head.split(b"\r\n")
        method, target, _ = line.split(b" ")
        named = dict(field.lower().partition(b":")[::2] for field in fields)
        kind = named_by(target).kind
        if kind == contents.EARLY:
            # before the body has come; the content says that there is none
            os.write(self.notes, method + b" " + target + b"\n")
            writer.write(response(content_of(method, target, b"")))
            await writer.drain()
            return False
        body = await reader.readexactly(int(named.get(b"content-length", b"0")))
        os.write(self.notes, method + b" " + target + b"\n")
        stays = await self.answer(kind, (method, target, body), writer)
        if kind in (contents.SWALLOWS, contents.RESETS_NEXT):
            # the next request on the connection is read, as far as it has come, and not answered
            await reader.read(1)
            if kind == contents.RESETS_NEXT:
                reset(writer)
        elif kind == contents.CLOSES_LATER:
            await asyncio.sleep(self.chance.uniform(*SOON))
        elif kind == contents.HANGS:
            await reader.read()
        return stays and named.get(b"connection", b"").strip() != b"close"

    async def answer(
        self, kind: bytes, asked: tuple[bytes, bytes, bytes], writer: asyncio.StreamWriter
    ) -> bool:
        """Writes what is asked for. Gives whether the connection may stay."""
        content = content_of(*asked)
        whole = response(content)
        if asked[0] == b"HEAD":
            whole = whole.removesuffix(content)
        stays = kind in (contents.PLAIN, contents.LATE, contents.BIG, contents.CHUNKS)
        if kind == contents.LATE:
            await asyncio.sleep(self.chance.uniform(*LATE))
        elif kind == contents.CHUNKS and asked[0] != b"HEAD":
            pieces = (content[at : at + PIECE] for at in range(0, len(content), PIECE))
            chunks = b"".join(b"%x\r\n%s\r\n" % (len(piece), piece) for piece in pieces)
            whole = b"HTTP/1.1 200 OK\r\nTransfer-Encoding: chunked\r\n\r\n%s0\r\n\r\n" % chunks
        elif kind == contents.TO_THE_END and asked[0] != b"HEAD":
            whole = b"HTTP/1.1 200 OK\r\n\r\n" + content
        elif kind == contents.SAYS_CLOSE:
            whole = whole.replace(b"\r\n", b"\r\nConnection: close\r\n", 1)
        elif kind == contents.VERSION_0:
            whole = whole.replace(b"HTTP/1.1", b"HTTP/1.0", 1)
        elif kind == contents.UNASKED:
            whole += UNASKED
        elif kind == contents.CUTS:
            whole = whole[: self.chance.randrange(1, len(whole) - 1)]
        elif kind == contents.RESETS:
            reset(writer)
        if kind not in (contents.DIES, contents.RESETS, contents.HANGS):
            writer.write(whole)
            await writer.drain()
        return stays


def reset(writer: asyncio.StreamWriter) -> None:
    """Lets the connection be closed by a reset."""
    connection: socket.socket = writer.get_extra_info("socket")
    connection.setsockopt(socket.SOL_SOCKET, socket.SO_LINGER, struct.pack("ii", 1, 0))


async def run(port: int, notes: str, seed: int) -> None:
    endpoint = SoakEndpoint(notes, seed)
    server = await asyncio.start_server(endpoint.serve, HOST, port, backlog=BACKLOG)
    await server.serve_forever()


if __name__ == "__main__":
    asyncio.run(run(int(sys.argv[2]), sys.argv[3], int(sys.argv[4])))
