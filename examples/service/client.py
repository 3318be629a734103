"""A client that edits a page through any of several servers, and gets over servers that die and connections that are cut.

```python
async with ClientSession() as session:
    writer = Writer(session, ["127.0.0.1:8080"], "my-page", secrets.token_urlsafe())
    await writer.sit()                                        # from here on its list is its own
    print(await writer.change(do="text", at=1, text="X"))     # {'n': 1, 'number': 17, 'reply': 'ok 6'}
    print(await writer.read(do="html"))                       # ok "<p>Xab</p>"
    await writer.leave()
```

It has one line under way at a time. A line keeps its number however often it is sent, so it is done once.
"""
from __future__ import annotations

import asyncio
import json
import random
from collections.abc import Sequence
from typing import Any
from urllib.parse import quote

from aiohttp import ClientError, ClientSession, ClientWebSocketResponse, WSMsgType, WSServerHandshakeError

PAUSE = 0.05  # seconds before it tries another server, about; twice as many each time, up to
MOST_PAUSE = 1.0
GOODBYE = 0.1  # seconds for the server's side of an ending
PATIENCE = 30.0  # seconds for an answer; a page whose server is gone is another's before that
CODE = 4000  # of a connection that is given up, and not left

Message = dict[str, Any]


class Anew(Exception):
    """The writer's list began anew: the log was cut, or its seat was lent to another. What it made before is committed or
    dropped, `undo` has nothing of it, and offsets may mean other places. `done` says whether the line was done; None where
    the service has forgotten this writer."""

    def __init__(self, done: bool | None) -> None:
        super().__init__(done)
        self.done = done


class Refused(Exception):
    """The service doesn't do this: its message says why."""


class Broken(Exception):
    """The connection ended."""


class Writer:
    def __init__(self, session: ClientSession, servers: Sequence[str], page: str, key: str) -> None:
        self._session, self._servers, self._page, self._key = session, servers, page, key
        self._socket: ClientWebSocketResponse | None = None
        self.server = ""  # the one that writes the page, as it was when this connected
        self.site: int | None = None
        self.since = -1  # the number of the line with which its list began
        self.n = 0  # the number of its last line
        self._done = 0  # that of the last one that is known to be done

    async def sit(self) -> None:
        """Takes a seat, if it has none: its list is the committed page then."""
        while self.site is None:
            try:
                answer = await self._ask({"sit": True})
            except Broken:
                continue
            if "error" in answer:
                raise Refused(answer)
            self._seated(answer)

    async def change(self, **line: Any) -> Message:
        """The answer to a line that may change the page. Sits down first where it has no seat."""
        await self.sit()
        self.n += 1
        message = {"n": self.n, "since": self.since, "line": line}
        while True:
            try:
                answer = await self._ask(message)
            except Broken:
                continue
            error = answer.get("error")
            if error is None:
                self._done = max(self._done, self.n)
                return answer
            if error not in ("cut", "seat"):
                raise Refused(answer)
            if error == "cut":
                self.since = answer["since"]
            else:
                self.site = None
            done = answer["done"]
            raise Anew(None if done < self._done else self.n <= done)

    async def read(self, **line: Any) -> str:
        """The reply to a command that changes nothing: of its own list, or without a seat of the committed page."""
        while True:
            try:
                answer = await self._ask({"ask": 0, "line": line})
            except Broken:
                continue
            if "error" in answer:
                raise Refused(answer)
            reply: str = answer["reply"]
            return reply

    async def leave(self) -> None:
        """Ends the connection, and gives the seat back."""
        if self._socket is not None:
            socket, self._socket = self._socket, None
            self.site = None
            await socket.close()

    def _seated(self, told: Message) -> None:
        self.site, self.n = told["site"], max(self.n, told["done"])
        self.since = told.get("since", self.since)

    async def _connected(self) -> None:
        pause = PAUSE
        while self._socket is None:
            # Any server hands on what is for another, and the page's own one needn't.
            server = self.server or random.choice(self._servers)
            url = f"http://{server}/pages/{quote(self._page, safe='')}/edit"
            try:
                self._socket = await asyncio.wait_for(self._session.ws_connect(
                    url, max_msg_size=0, timeout=GOODBYE), PATIENCE)
                welcome = await self._ask({"key": self._key})
            except (ClientError, OSError, asyncio.TimeoutError, Broken) as fault:
                if isinstance(fault, WSServerHandshakeError) and fault.status in (401, 403, 404):
                    raise Refused(fault.message) from fault
                await self._drop()
                self.server = ""
                await asyncio.sleep(pause * random.uniform(0.5, 1.5))
                pause = min(2 * pause, MOST_PAUSE)
                continue
            if "error" in welcome:
                raise Refused(welcome)
            self.server = welcome["server"]
            if self.since < 0:
                self._seated(welcome)

    async def _ask(self, message: Message) -> Message:
        """The answer to this message, or `Broken`. What the service tells by itself isn't heeded."""
        if "key" not in message:
            await self._connected()
        if self._socket is None:
            raise Broken
        try:
            await self._socket.send_str(json.dumps(message))
            while True:
                told = await self._socket.receive(PATIENCE)
                if told.type is not WSMsgType.TEXT:
                    break
                answer: Message = json.loads(told.data)
                if not is_news(answer):
                    return answer
        except (ClientError, OSError, asyncio.TimeoutError) as fault:
            await self._drop()
            raise Broken from fault
        await self._drop()
        raise Broken

    async def _drop(self) -> None:
        socket, self._socket = self._socket, None
        if socket is not None:
            await socket.close(code=CODE)


def is_news(told: Message) -> bool:
    """Whether the service tells this by itself: of lines, of people, or that the seat is another's now."""
    return not told.keys().isdisjoint(("lines", "people", "gone")) or told.keys() == {"site", "done"}
