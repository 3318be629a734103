"""WebSockets, and what they carry."""
from __future__ import annotations

import asyncio
import json
import random

from aiohttp import WSMsgType, web

from seats import Line, spelled

MOST_MESSAGE = 1 << 20  # bytes
PIECE = 1 << 13  # bytes that are read at once
HEARTBEAT = 40.0  # seconds until one that says nothing is asked whether it is there
GOODBYE = 0.1  # seconds that the other side has for ending a talk
GOING = 1001
ENDINGS = frozenset((1000, GOING))  # codes of who leaves, and of a window that is closed


class Bad(ValueError):
    """No message of this protocol."""


class Wire:
    """One connection. Whoever sends waits where the other side doesn't read."""

    def __init__(self) -> None:
        # Each is asked at another time whether it is there.
        heartbeat = HEARTBEAT * random.uniform(0.5, 1)
        self.socket = web.WebSocketResponse(heartbeat=heartbeat, timeout=GOODBYE, max_msg_size=MOST_MESSAGE, compress=False)
        self.inward = 0  # bytes of messages that weren't answered yet
        self.said_goodbye = False
        self.transport: asyncio.Transport | None = None

    async def begin(self, request: web.Request) -> None:
        if request.transport is None:
            raise web.HTTPServiceUnavailable(text="who asked has gone\n")
        await self.socket.prepare(request)
        assert isinstance(request.transport, asyncio.Transport)
        self.transport = request.transport
        # What is read at once is taken apart at once, and meanwhile nobody else has the server.
        setattr(self.transport, "max_size", PIECE)
        self.transport.resume_reading()

    async def send(self, text: str) -> None:
        await self.socket.send_str(text)

    async def tell(self, told: Line) -> None:
        await self.send(spelled(told))

    def write(self, frame: bytes) -> bool:
        """A message that was framed before, at once; whether the other side has taken all that it was sent."""
        if self.transport is None or self.transport.is_closing():
            return False
        self.transport.write(frame)
        return self.transport.get_write_buffer_size() == 0

    async def hear(self) -> str | None:
        """The next text; None where the other side has ended. Raises `Bad` where it is none."""
        # Many that came at once are taken one by one, as others have theirs.
        await asyncio.sleep(0)
        got = await self.socket.receive()
        if got.type is WSMsgType.TEXT:
            return str(got.data)
        if got.type is WSMsgType.BINARY:
            raise Bad("messages are text")
        self.said_goodbye = got.type is WSMsgType.CLOSE and got.data in ENDINGS
        return None


class Wires(set[Wire]):
    """The connections of a server."""

    async def close(self) -> None:
        """The server ends; whoever is here may come to it again."""
        await asyncio.gather(*(wire.socket.close(code=GOING) for wire in self if not wire.socket.closed), return_exceptions=True)


def framed(text: str) -> bytes:
    """A text as a server's WebSocket sends it."""
    body = text.encode()
    if len(body) < 126:
        return bytes((0x81, len(body))) + body
    if len(body) < 1 << 16:
        return b"\x81\x7e" + len(body).to_bytes(2, "big") + body
    return b"\x81\x7f" + len(body).to_bytes(8, "big") + body


def said(text: str) -> Line:
    """A message as an object. Raises `Bad` where it is none, or where UTF-8 can't spell it: JSON may name half of a surrogate
    pair."""
    try:
        line = json.loads(text)
        if not isinstance(line, dict):
            raise Bad("no object")
        if "\\u" in text:
            spelled(line)
    except RecursionError:
        raise Bad("objects in one another too deep") from None
    except ValueError as fault:
        raise Bad(str(fault)) from None
    return line


def number_of(given: object, default: int | None = None) -> int:
    if given is None and default is not None:
        return default
    if isinstance(given, str) and given.isascii() and given.isdigit() and len(given) < 16:
        return int(given)
    if isinstance(given, int) and not isinstance(given, bool) and 0 <= given < 1 << 53:
        return given
    raise Bad("no number")
