"""Ends connections that take more of the server than their part: of time, by half a request, half a message or by reading
nothing; of memory, by what waits for them; of files, by their number."""
from __future__ import annotations

import asyncio
import math
import resource
import socket
import sys
from dataclasses import dataclass

from aiohttp import web

from wire import Wires

LOOK = 2.0  # seconds from one look to the next
PATIENCE = 10.0  # seconds in which a connection has to send its first request, and to take some of what it is sent


@dataclass
class Seen:
    since: float  # when the connection was first seen; no matter once it has sent a request
    size: int = 0  # bytes that it hadn't taken at the last look, but for those that the system keeps
    taken: int = 0  # and that its system said it has
    half: int = 0  # bytes of a message whose rest hadn't come
    stuck: float = math.inf  # since when it takes nothing, or sends nothing of the rest


class Watch:
    def __init__(self, wires: Wires, most: int) -> None:
        """So many bytes may wait, of all connections together."""
        self._wires, self._most = wires, most
        self._seen: dict[web.RequestHandler, Seen] = {}
        self.waiting = 0  # bytes, at the last look

    def bound(self, server: web.Server, most: int) -> None:
        """Of more connections than so many the newest are ended, before anything is read. asyncio, where it finds no file for one that
        comes, has time for nothing else, and writes megabytes of complaints."""
        begin = server.connection_made

        def begun(connection: web.RequestHandler, transport: asyncio.Transport) -> None:
            begin(connection, transport)
            if len(server.connections) > most:
                transport.abort()

        setattr(server, "connection_made", begun)

    def heard(self, connection: web.RequestHandler) -> None:
        """It has sent a request."""
        self._seen.setdefault(connection, Seen(0)).since = math.inf

    async def run(self, server: web.Server) -> None:
        while True:
            await asyncio.sleep(LOOK)
            now = asyncio.get_running_loop().time()
            self._seen = {connection: self._seen.get(connection, Seen(now)) for connection in server.connections}
            for connection, seen in self._seen.items():
                look(connection, seen, now)
                if now - min(seen.since, seen.stuck) > PATIENCE:
                    end(connection)
            self._end_the_greediest()

    def _end_the_greediest(self) -> None:
        """Where too much waits, connections for which most does are ended."""
        inward = {wire.transport: wire.inward for wire in self._wires}
        sizes = {connection: seen.size + seen.half + inward.get(connection.transport, 0) for connection, seen in self._seen.items()}
        self.waiting = sum(sizes.values())
        too_much = self.waiting - self._most
        for connection in sorted(sizes, key=lambda connection: -sizes[connection]) if too_much > 0 else ():
            print(f"too much waits: a connection for which {sizes[connection]} bytes do is ended", file=sys.stderr, flush=True)
            end(connection)
            too_much -= sizes[connection]
            if too_much <= 0:
                return


def look(connection: web.RequestHandler, seen: Seen, now: float) -> None:
    transport = connection.transport
    size = 0 if transport is None else transport.get_write_buffer_size()
    half, taken = half_sent(connection), taken_by(transport)
    if size and size >= seen.size and taken == seen.taken or half and half == seen.half:
        seen.stuck = min(seen.stuck, now)
    else:
        seen.stuck = math.inf
    seen.size, seen.half, seen.taken = size, half, taken


def taken_by(transport: asyncio.Transport | None) -> int:
    """The bytes that the other side's system has: `tcpi_bytes_acked`. Ours keeps megabytes, and takes no more until a good part is gone."""
    it = None if transport is None else transport.get_extra_info("socket")
    try:
        return 0 if it is None else int.from_bytes(it.getsockopt(socket.IPPROTO_TCP, socket.TCP_INFO, 128)[120:], sys.byteorder)
    except OSError:  # it has ended
        return 0


def half_sent(connection: web.RequestHandler) -> int:
    """The bytes that aiohttp holds of a WebSocket's message until it is whole; it tells nobody."""
    parser = getattr(connection, "_payload_parser", None)
    return sum(len(getattr(parser, part, b"")) for part in ("_partial", "_frame_payload", "_tail"))


def fitting(most: int, programs: int, each: int) -> int:
    """How many connections there may be, so many at most. Each needs so many files, its own and perhaps one to another server, and a
    program some; this process is allowed as many, if it can be."""
    others = 4 * programs + 100
    files = each * most + others
    now, allowed = resource.getrlimit(resource.RLIMIT_NOFILE)
    if allowed != resource.RLIM_INFINITY:
        files = min(files, allowed)
    if now != resource.RLIM_INFINITY and now < files:
        resource.setrlimit(resource.RLIMIT_NOFILE, (files, allowed))
    return max(1, (files - others) // each)


def end(connection: web.RequestHandler) -> None:
    if connection.transport is not None:
        connection.transport.abort()
