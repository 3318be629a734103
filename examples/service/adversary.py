"""For the check: what somebody may send who means harm. Each message is answered or refused, and after each one who edits the
same page goes on as before."""
from __future__ import annotations

import asyncio
import gzip
import json
import secrets
from typing import Any

from aiohttp import ClientError, ClientSession, ClientWebSocketResponse, WSMsgType
from yarl import URL

from client import is_news
from judge import sure

SOON = 20.0  # seconds in which everything is answered, on a busy machine
SECRET = "a text that nobody was sent"
HALF = r"\ud800"

# First messages, and what the answer has.
HELLOS = [
    ("half of a surrogate pair in a key", '{"key":"' + 20 * HALF + '"}', "bad"),
    ("a short key", '{"key":"short"}', "bad"),
    ("a key that is a number", '{"key":12345678901234567890}', "bad"),
    ("a list", "[]", "bad"),
    ("no JSON", "{", "bad"),
    ("a number below 0 to begin with", '{"key":"nobody can guess 1","from":-1}', "bad"),
    ("a number that is true", '{"key":"nobody can guess 1","from":true}', "bad"),
    ("a number that is no integer", '{"key":"nobody can guess 1","from":1e3}', "bad"),
    ("a number that the log hasn't reached", '{"key":"nobody can guess 1","from":9007199254740991}', '"next"'),
    ("lists in one another", "[" * 200_000, "bad"),
]

# Messages of who has a seat, and what the answer has. N is the next number, and S the one of the list.
MESSAGES = [
    ("half of a surrogate pair in a text", '{"n":N,"since":S,"line":{"do":"text","at":1,"text":"' + HALF + '"}}', "bad"),
    ("half of a surrogate pair in a name", '{"ask":"' + HALF + '","line":{"do":"html"}}', "bad"),
    ("a read of another's site", '{"ask":1,"line":{"do":"html","site":OTHER}}', '"reply":"ok'),
    ("a change of another's site", '{"n":N,"since":S,"line":{"do":"text","at":1,"text":"W","site":OTHER,"log":{"leave":true}}}',
     '"reply":"ok'),
    ("an offset that is no number", '{"n":N,"since":S,"line":{"do":"text","at":NaN,"text":"x"}}', "no bad_json"),
    ("an offset without end", '{"n":N,"since":S,"line":{"do":"text","at":1e400,"text":"x"}}', "no bad_json"),
    ("a line that only the service has", '{"n":N,"since":S,"line":{"do":"open","page":"<p>other</p>"}}', "bad"),
    ("another one", '{"n":N,"since":S,"line":{"do":"serve","site":OTHER}}', "bad"),
    ("an unknown command", '{"n":N,"since":S,"line":{"do":"paint"}}', "bad"),
    ("no line", '{"n":N,"since":S,"line":[{"do":"text"}]}', "bad"),
    ("a number that was done", '{"n":0,"since":S,"line":{"do":"text","at":1,"text":"x"}}', '"passed"'),
    ("another's list", '{"n":N,"since":0,"line":{"do":"text","at":1,"text":"x"}}', '"cut"'),
    ("a huge number", '{"n":1000000000000000000000,"since":S,"line":{"do":"text","at":1,"text":"x"}}', "bad"),
    ("a selection that is none", '{"here":{"anchor":"x"}}', "bad"),
    ("nothing", "{}", "bad"),
]

# Requests: method, path, what they are of, and their status.
OTHERS = {"Origin": "http://elsewhere.example"}
REQUESTS: list[tuple[str, str, str, dict[str, str], bytes, int]] = [
    ("a page of another site that writes", "PUT", "/pages/stolen", OTHERS, b"<p>x</p>", 403),
    ("a page of another site that reads", "GET", "/pages/calm", OTHERS, b"", 403),
    ("a page of no site", "GET", "/pages/calm", {"Origin": "null"}, b"", 403),
    ("an origin that is none", "GET", "/pages/calm", {"Origin": "http://["}, b"", 403),
    ("another name for this machine", "GET", "/pages/calm", {"Host": "elsewhere.example"}, b"", 403),
    ("a server's word, from outside", "GET", "/pages/calm", {"X-Vemodel-Hop": "1", **OTHERS}, b"", 403),
    ("a name with U+0000", "GET", "/pages/%00", {}, b"", 400),
    ("a name with a newline", "PUT", "/pages/a%0Ab", {}, b"<p>x</p>", 400),
    ("a name that is no UTF-8", "PUT", "/pages/%ED%A0%80", {}, b"<p>x</p>", 400),
    ("a long name", "PUT", "/pages/" + 201 * "a", {}, b"<p>x</p>", 400),
    ("a page that is no UTF-8", "PUT", "/pages/bytes", {}, b"\xff\xfe", 400),
    ("a page that is no HTML of the program's", "PUT", "/pages/wrong", {}, b"<p", 422),
    ("a page that is too long", "PUT", "/pages/long", {}, b"x" * (3 << 20), 413),
    ("a page that is packed", "PUT", "/pages/packed", {"Content-Encoding": "gzip"}, gzip.compress(b"<p>x</p>"), 415),
    ("a number that is none", "GET", "/pages/calm/lines?from=-1", {}, b"", 400),
    ("a way out of the folder", "GET", "/pages/..%2f..%2fetc%2fpasswd", {}, b"", 404),
]


class Connection:
    """A WebSocket that says one thing after the other."""

    def __init__(self, socket: ClientWebSocketResponse) -> None:
        self.socket = socket
        self.site, self.since, self.n = -1, -1, 0
        self._heard: asyncio.Queue[str] = asyncio.Queue()
        self._reading = asyncio.create_task(self._read())

    async def _read(self) -> None:
        """All the time, as this answers pings, too."""
        while (told := await self.socket.receive()).type is WSMsgType.TEXT:
            if not is_news(json.loads(told.data)):
                self._heard.put_nowait(str(told.data))
        self._heard.put_nowait("")

    @classmethod
    async def to(cls, session: ClientSession, server: str, page: str) -> Connection:
        return cls(await session.ws_connect(f"http://{server}/pages/{page}/edit", max_msg_size=0, timeout=0.1))

    @classmethod
    async def seated(cls, session: ClientSession, server: str, page: str, key: str = "") -> Connection:
        it = await cls.to(session, server, page)
        await it.say(json.dumps({"key": key or secrets.token_urlsafe()}))
        await it.sit()
        return it

    async def sit(self) -> None:
        seat = json.loads(await self.say('{"sit":true}'))
        self.site, self.since = seat["site"], seat["since"]

    async def say(self, text: str) -> str:
        """The answer; empty where the connection ends."""
        await self.socket.send_str(text)
        return await self.hear()

    async def hear(self) -> str:
        return await asyncio.wait_for(self._heard.get(), SOON)

    async def do(self, **line: Any) -> str:
        self.n += 1
        return await self.say(json.dumps({"n": self.n, "since": self.since, "line": line}))


class Bystander:
    """Who edits the page "calm" meanwhile, by one connection, and has something unsent."""

    def __init__(self, connection: Connection) -> None:
        self._connection = connection
        self._length = 0

    @classmethod
    async def on(cls, session: ClientSession, server: str) -> Bystander:
        it = cls(await Connection.seated(session, server, "calm"))
        sure('"reply":"ok' in await it._connection.do(do="text", at=1, text=SECRET), "who edits meanwhile can't begin")
        return it

    @property
    def site(self) -> int:
        return self._connection.site

    async def unharmed(self, after: str) -> None:
        try:
            told = await self._connection.do(do="text", at=1, text="q")
            if '"error":"seat"' in told:  # others needed it; what was unsent is committed
                await self._connection.sit()
                told = await self._connection.do(do="text", at=1, text="q")
            shown = await self._connection.say('{"ask":0,"line":{"do":"html"}}')
        except (asyncio.TimeoutError, ClientError, ConnectionError) as fault:
            sure(False, f"after {after} who edits meanwhile isn't answered: {fault!r}")
        self._length += 1
        sure('"reply":"ok' in told and shown.count("q") == self._length and SECRET in shown,
             f"after {after} who edits meanwhile is answered {told} {shown[:200]}")


class Adversary:
    def __init__(self, session: ClientSession, server: str, bystander: Bystander) -> None:
        self._session, self._server, self._bystander = session, server, bystander
        self.sent = 0

    async def say_everything(self) -> None:
        for what, text, wanted in HELLOS:
            connection = await Connection.to(self._session, self._server, "calm")
            await self._judge(what, await connection.say(text), wanted)
            await connection.socket.close()
        connection = await Connection.seated(self._session, self._server, "calm")
        for what, text, wanted in MESSAGES:
            connection.n += 1
            text = text.replace("N", str(connection.n), 1) if '"n":N' in text else text
            text = text.replace('"since":S', f'"since":{connection.since}').replace("OTHER", str(self._bystander.site))
            await self._judge(what, await connection.say(text), wanted)
        await connection.socket.send_bytes(b"\xff")
        await self._judge("bytes", await connection.hear(), "bad")
        await self._judge("a long message", await connection.say('{"ask":"' + "x" * (2 << 20) + '"}'), "")

    async def ask_everything(self) -> None:
        for what, method, path, headers, body, wanted in REQUESTS:
            url = URL(f"http://{self._server}{path}", encoded=True)
            async with self._session.request(method, url, headers=headers, data=body or None) as told:
                sure(told.status == wanted, f"{what}: {told.status} in place of {wanted}: {(await told.text())[:200]}")
            self.sent += 1
            await self._bystander.unharmed(what)

    async def _judge(self, what: str, answer: str, wanted: str) -> None:
        self.sent += 1
        held = wanted in answer if wanted else not answer
        sure(held and SECRET not in answer, f"{what} is answered {answer[:200]!r}")
        await self._bystander.unharmed(what)
