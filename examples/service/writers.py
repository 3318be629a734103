"""For the check: people who write at random, and one who follows, on each of some pages. They note what they were answered."""
from __future__ import annotations

import asyncio
import json
import random
import secrets
import socket
import time
from dataclasses import dataclass, field
from typing import Any

from aiohttp import ClientError, ClientSession, ClientWebSocketResponse, TCPConnector, WSMsgType

from client import GOODBYE, MOST_PAUSE, PATIENCE, PAUSE, Anew, Message, Refused, Writer
from seats import digest

CUT = 0.003  # of a writer's messages, the connection is cut just after so many
REST = 8.0  # seconds from one rest of a page's writers to the next
STUCK = 180.0  # seconds after which writers that don't come to an end aren't waited for
QUIET = 1.5  # seconds that a rest takes


@dataclass
class Told:
    """What the writers of a page were told, and its follower."""
    page: str
    answers: dict[int, tuple[dict[str, Any], str]] = field(default_factory=dict)  # accepted lines and replies, by number
    done: set[tuple[str, int]] = field(default_factory=set)  # writer and number of lines of which only that is known
    asked: int = 0  # answers of any kind
    cuts: int = 0  # connections that were cut
    anew: int = 0  # lines whose list began anew
    # When the first line was answered by a connection made at a time, and by which server; in the order of these times.
    first: list[tuple[float, float, str]] = field(default_factory=list)
    followed: list[dict[str, Any]] = field(default_factory=list)
    gaps: int = 0
    pages: list[str] = field(default_factory=list)  # each writer's page in the end


class Person(Writer):
    """A writer whose connection is cut now and then, just after a line was sent: whether it was done nobody has said."""

    def __init__(self, session: ClientSession, servers: list[str], told: Told, rnd: random.Random) -> None:
        key = secrets.token_urlsafe()
        super().__init__(session, servers, told.page, key)
        self._told, self._rnd, self._holder = told, rnd, digest(key)
        self._begun = 0.0
        self._length = 0

    async def _ask(self, message: Message) -> Message:
        if "key" in message:
            self._begun = time.monotonic()
        elif self._socket is not None and self._rnd.random() < CUT:
            self._told.cuts += 1
            await cut(self._socket, json.dumps(message))
        return await super()._ask(message)

    async def do(self, **line: Any) -> str:
        """The reply, or nothing where there is none."""
        told = self._told
        try:
            answer = await self.change(**line)
        except Anew as fault:
            told.anew += 1
            if fault.done:
                told.done.add((self._holder, self.n))
            self._length = 0
            return ""
        except Refused:
            return ""  # the log is as long as may be, or all seats are taken
        told.asked += 1
        if not told.first or told.first[-1][1] < self._begun:
            told.first.append((time.monotonic(), self._begun, self.server))
        reply: str = answer["reply"]
        if reply.startswith("ok"):
            told.answers[answer["number"]] = ({**line, "site": self.site, "log": {"n": self.n}}, reply)
            if len(reply.split(" ")) == 2 and line["do"] != "send":
                self._length = int(reply[3:])
        return reply

    async def meet(self) -> bool:
        """Sends, and takes all that there is; whether there was anything. Who has no seat has nothing."""
        if self.site is None:
            return False
        met = (await self.do(do="send")).startswith("ok")
        while (await self.do(do="take")).startswith("ok"):
            met = True
            self._length = 0
        return met

    async def write(self) -> None:
        """One line, or a few that take what others did."""
        rnd = self._rnd
        if self._length == 0:
            await self.sit()
            # ok root 0 LENGTH structural
            self._length = int((await self.read(do="at", at=0)).split(" ")[3])
        at = rnd.randrange(self._length)
        what = rnd.random()
        if what < 0.04:
            await self.meet()
        elif what < 0.60:
            await self.do(do="text", at=at, text=rnd.choice(["a", "bc", "é", "\U0001f600 ", "w "]))
        elif what < 0.76:
            await self.do(do="remove", **{"from": at, "to": at + rnd.randint(1, 6)})
        elif what < 0.82:
            await self.do(do="mark", **{"from": at, "to": at + rnd.randint(1, 8)}, tag=rnd.choice(["b", "i"]))
        elif what < 0.86:
            await self.do(do="split", at=at)
        elif what < 0.89:
            await self.do(do="insert", at=at, html="<p>new <b>words</b></p>")
        elif what < 0.92:
            await self.do(do="select", anchor=at, focus=at)
        elif what < 0.94:
            await self.do(do="type", text="typed")
        elif what < 0.98:
            await self.do(do="undo")
        else:
            await self.do(do="redo")


async def cut(socket_: ClientWebSocketResponse, message: str) -> None:
    try:
        await socket_.send_str(message)
        socket_.get_extra_info("socket").shutdown(socket.SHUT_RDWR)
    except (ClientError, OSError):
        pass


async def settle(writers: list[Person]) -> None:
    """Until nobody has anything to send or to take: then all sites have one page."""
    while any(await asyncio.gather(*(writer.meet() for writer in writers))):
        pass


async def write(writers: list[Person], until: float, rnd: random.Random) -> None:
    """Writers write at once, and all rest now and then, as that is when a log is cut."""
    while (now := time.monotonic()) < until:
        rest = min(until, now + REST * rnd.uniform(0.7, 1.3))

        async def one(writer: Person, rest: float = rest) -> None:
            while time.monotonic() < rest:
                try:
                    await writer.write()
                except Refused:
                    await asyncio.sleep(MOST_PAUSE)  # the log is as long as may be

        await asyncio.gather(*map(one, writers))
        await settle(writers)
        await asyncio.sleep(QUIET)


async def follow(session: ClientSession, servers: list[str], told: Told, rnd: random.Random) -> None:
    """Follows a page through any server, from where the last one left off."""
    pause = PAUSE
    while True:
        try:
            url = f"http://{rnd.choice(servers)}/pages/{told.page}/follow?from={len(told.followed)}"
            stream = await asyncio.wait_for(session.ws_connect(url, max_msg_size=0, timeout=GOODBYE), PATIENCE)
            try:
                while (message := await stream.receive(PATIENCE)).type is WSMsgType.TEXT:
                    pause = PAUSE
                    said = json.loads(message.data)
                    told.gaps += said["number"] != len(told.followed)
                    told.followed += said["lines"]
                    if rnd.random() < CUT / 10:
                        told.cuts += 1
                        break
            finally:
                await stream.close()
        except (ClientError, OSError, asyncio.TimeoutError):
            pass
        await asyncio.sleep(pause * rnd.uniform(0.5, 1.5))
        pause = min(2 * pause, MOST_PAUSE)


async def page(session: ClientSession, servers: list[str], name: str, writers: int, until: float, seed: int) -> Told:
    rnd = random.Random(f"{seed} {name}")
    told = Told(name)
    following = asyncio.create_task(follow(session, servers, told, rnd))
    people = [Person(session, servers, told, rnd) for _ in range(writers)]
    await write(people, until, rnd)
    await settle(people)
    told.pages = [(await person.read(do="html"))[3:] for person in people]
    # A line more, by which the follower is seen to have come to the end.
    while not (await people[0].do(do="select", anchor=0, focus=0)).startswith("ok"):
        pass
    waited = time.monotonic() + 15
    while len(told.followed) <= max(told.answers) and time.monotonic() < waited:
        await asyncio.sleep(0.05)
    following.cancel()
    for person in people:
        await person.leave()
    return told


async def _run(servers: list[str], names: list[str], writers: int, until: float, seed: int) -> list[Told]:
    async with ClientSession(connector=TCPConnector(limit=0)) as session, asyncio.timeout(until - time.monotonic() + STUCK):
        return list(await asyncio.gather(*(page(session, servers, name, writers, until, seed) for name in names)))


def run(servers: list[str], names: list[str], writers: int, until: float, seed: int) -> list[Told]:
    """Writes these pages until that time of the monotonic clock, and settles them."""
    return asyncio.run(_run(servers, names, writers, until, seed))
