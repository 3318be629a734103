"""For the check: who asks for more than there is, of memory, time and places. Each gets an end or a refusal, and who edits
meanwhile goes on."""
from __future__ import annotations

import asyncio
import json
import os
import secrets
import signal
import socket
import tempfile
import time
from collections.abc import Awaitable, Iterator
from contextlib import contextmanager
from pathlib import Path

from aiohttp import ClientSession

import cluster
from adversary import SECRET, SOON, Adversary, Bystander, Connection
from judge import sure

MEGABYTE = 1 << 20
MEMORY = 160 * MEGABYTE  # that the server may grow by
LATE = 40.0  # seconds after which who sends or reads nothing has surely been ended
UNASKED = 28.0  # and before which nobody is ended who doesn't answer pings
PROGRAMS = 6
CONNECTIONS = 200
MOST = 100_000  # bytes of a log


def frame(text: str) -> bytes:
    """A message as a client's WebSocket sends it, masked by zeros."""
    body = text.encode()
    size = bytes([0x80 | len(body)]) if len(body) < 126 else b"\xff" + len(body).to_bytes(8, "big")
    return b"\x81" + size + b"\0\0\0\0" + body


class Siege:
    def __init__(self, session: ClientSession, server: cluster.Server, bystander: Bystander) -> None:
        self._session, self._server, self._bystander = session, server, bystander
        host, _, port = server.address.partition(":")
        self._at = (host, int(port))

    @property
    def _url(self) -> str:
        return f"http://{self._server.address}"

    async def all(self) -> None:
        before = self._server.memory
        slow = [asyncio.create_task(part) for part in (
            self.half_a_request(), self.half_a_page(), self.half_a_message(), self.reads_nothing(), self.reads_slowly())]
        for part in (self.hurries, self.wanders, self.asks_ahead, self.wants_memory, self.wants_time, self.programs_end, self.visits,
                     self.crowd, self.talks_nonsense, self.many_look, self.long_log, self.many_pages, self.many_connections):
            await part()
            await self._bystander.unharmed(part.__name__)
        for task in slow:
            await task
        await self._bystander.unharmed("slow connections")
        grown = self._server.memory - before
        sure(grown < MEMORY, f"the server grew by {grown >> 20} MiB")

    async def _connected(self, first: bytes) -> tuple[asyncio.StreamReader, asyncio.StreamWriter]:
        it = socket.socket()
        it.setsockopt(socket.SOL_SOCKET, socket.SO_RCVBUF, 4096)
        it.setblocking(False)
        await asyncio.get_running_loop().sock_connect(it, self._at)
        reader, writer = await asyncio.open_connection(sock=it, limit=4096)
        writer.write(first)
        return reader, writer

    async def _upgraded(self, page: str) -> tuple[asyncio.StreamReader, asyncio.StreamWriter]:
        reader, writer = await self._connected(
            f"GET /pages/{page}/edit HTTP/1.1\r\nHost: {self._server.address}\r\nUpgrade: websocket\r\nConnection: Upgrade\r\n"
            "Sec-WebSocket-Key: dGhlIHNhbXBsZSBub25jZQ==\r\nSec-WebSocket-Version: 13\r\n\r\n".encode())
        await reader.readuntil(b"\r\n\r\n")
        return reader, writer

    async def half_a_request(self) -> None:
        reader, writer = await self._connected(b"GET /pages/calm HTTP/1.1\r\nHost: ")
        sure(await ended(reader), "half a request is waited for")
        writer.close()

    async def half_a_page(self) -> None:
        reader, writer = await self._connected(
            f"PUT /pages/half HTTP/1.1\r\nHost: {self._server.address}\r\nContent-Length: 100\r\n\r\n<p>".encode())
        answer = await asyncio.wait_for(reader.readline(), LATE)
        sure(b" 408 " in answer, f"half a page is answered {answer!r}")
        writer.close()

    async def talks_nonsense(self) -> None:
        """What is no request; and a page whose sender goes in the middle of it."""
        half = f"PUT /pages/half HTTP/1.1\r\nHost: {self._server.address}\r\nContent-Length: 100\r\n\r\n<p>"
        for said in b"\x16\x03\x01\r\n\r\n", half.encode():
            _, writer = await self._connected(said)
            await asyncio.sleep(0.2)
            writer.close()

    async def half_a_message(self) -> None:
        """Forty begin messages of a megabyte, and don't end them: some by a frame that isn't the last, some within a frame."""
        frames = [head + b"\xff" + size.to_bytes(8, "big") + bytes(4) + b"x" * 1_000_000
                  for head, size in ((b"\x01", 1_000_000), (b"\x81", 1_000_001))]
        connections = [await self._upgraded("calm") for _ in range(40)]
        for n, (_, writer) in enumerate(connections):
            writer.write(frame('{"key":"nobody can guess it"}') + frames[n % 2])
        sure(all(await asyncio.gather(*(ended(reader, UNASKED) for reader, _ in connections))), "half a message is waited for")
        for _, writer in connections:
            writer.close()

    async def reads_nothing(self) -> None:
        """Asks for 100 answers of a megabyte, and reads none."""
        cluster.put(self._server.address, "wide", "<p>" + "\x01" * 180_000 + "</p>")
        reader, writer = await self._upgraded("wide")
        writer.write(frame('{"key":"nobody can guess it"}') + frame('{"ask":0,"line":{"do":"html"}}') * 100)
        try:
            await asyncio.sleep(LATE / 2)
            sure(await ended(reader), "who reads nothing is waited for")
        finally:
            writer.close()

    async def reads_slowly(self) -> None:
        """Takes a long page as a slow line brings it, for longer than is waited for who takes nothing; and then the rest. All comes."""
        await self._long_page("slowly")
        reader, writer = await self._connected(f"GET /pages/slowly HTTP/1.1\r\nHost: {self._server.address}\r\n\r\n".encode())
        size = int((await reader.readuntil(b"\r\n\r\n")).partition(b"Content-Length: ")[2].split(b"\r\n")[0])
        for _ in range(180):
            size -= len(await reader.read(6400))
            await asyncio.sleep(0.1)
        while some := await reader.read(65536):
            size -= len(some)
        sure(size == 0, f"who reads slowly misses {size} bytes")
        writer.close()

    async def _long_page(self, name: str) -> None:
        """A page that a short line made 20 megabytes."""
        cluster.put(self._server.address, name, "<p>x</p>" * 1000)
        evil = await Connection.seated(self._session, self._server.address, name)
        await evil.do(**{"do": "wrap", "from": 0, "to": 3000, "wrap_each": [{"kind": "div", "attrs": [["class", "x" * 20_000]]}]})
        await evil.do(do="send")
        await evil.socket.close()

    async def hurries(self) -> None:
        """Sends 40 megabytes, and doesn't wait for an answer."""
        _, writer = await self._upgraded("calm")
        writer.write(frame('{"key":"a writer who hurries"}') + frame('{"sit":true}'))
        long = "z" * (MEGABYTE - 200)
        try:
            for n in range(1, 41):
                writer.write(frame('{"n":%d,"since":0,"line":{"do":"attr","at":0,"name":"id","to":"%s"}}' % (n, long)))
                await asyncio.wait_for(writer.drain(), SOON)
        except (OSError, asyncio.TimeoutError):
            pass
        writer.close()

    async def wanders(self) -> None:
        """Five say thousands of times where they are; an answer to another one comes between."""
        there = frame('{"here":{"anchor":1,"focus":1,"entries":0}}')
        connections = [await self._upgraded("calm") for _ in range(5)]
        for _, writer in connections:
            writer.write(frame('{"key":"nobody can guess it"}') + there * 5000 + frame('{"ask":"over","line":{"do":"at","at":0}}'))
        reading = [asyncio.create_task(hears(reader, b'"over"')) for reader, _ in connections]
        answered = 0
        while not any(task.done() for task in reading):
            await self._bystander.unharmed("wandering")
            answered += 1
        sure(answered > 3, f"beside who wanders there were {answered} answers")
        await asyncio.gather(*reading)
        for _, writer in connections:
            writer.close()

    async def asks_ahead(self) -> None:
        """Sends 20 megabytes of requests, and doesn't wait for an answer, which takes a while."""
        cluster.put(self._server.address, "busy", "<p>" + "x" * 400_000 + "</p>")
        evil = await Connection.seated(self._session, self._server.address, "busy")
        busy = asyncio.create_task(evil.do(do="batch", cmds=marks("unmark", 400_000, 1000)))
        await asyncio.sleep(0.2)
        asked = f"GET /pages/busy HTTP/1.1\r\nHost: {self._server.address}\r\n\r\n".encode()
        reader, writer = await self._connected(asked)
        try:
            for _ in range(20):
                writer.write(asked * (MEGABYTE // len(asked)))
                await asyncio.wait_for(writer.drain(), SOON)
        except (OSError, asyncio.TimeoutError):
            pass
        sure(await ended(reader), "who asks ahead is answered on")
        writer.close()
        await busy
        await evil.socket.close()

    async def wants_memory(self) -> None:
        """A short line whose change needs more than a program may have. Time there would be for it."""
        evil = await self._too_much("marks", 400_000, marks("mark", 400_000, 3), "memory")
        await evil.socket.close()

    async def wants_time(self) -> None:
        """A line that looks at all letters again and again, and then another one of the same person, which waits."""
        evil = await self._too_much("slow", 400_000, marks("unmark", 400_000, 1000), "time")
        sure(await silent(evil.do(do="select", anchor=0, focus=0)), "who took a page's time goes on at once")
        await evil.socket.close()

    async def _too_much(self, page: str, length: int, cmds: list[dict[str, object]], why: str) -> Connection:
        """Somebody asks for much on a long page, by one line, and is refused; another one there goes on. The connection by which
        the first one came again."""
        cluster.put(self._server.address, page, "<p>" + "x" * length + "</p>")
        other = await Connection.seated(self._session, self._server.address, page)
        await other.do(do="text", at=1, text=SECRET)
        key = secrets.token_urlsafe()
        for _ in range(2):
            evil = await Connection.seated(self._session, self._server.address, page, key)
            answers = await asyncio.gather(evil.do(do="batch", cmds=cmds), other.do(do="text", at=1, text="q"))
            sure('"error":"ended"' in answers[0] and why in answers[0], f"a line that takes much {why} is answered {answers[0]}")
            sure('"reply":"ok' in answers[1], f"beside a line that takes much {why} another one is answered {answers[1]}")
        shown = await other.say('{"ask":0,"line":{"do":"html"}}')
        sure("qq" + SECRET in shown, f"after lines that took much {why} a page is {shown[:100]}")
        sure('"batch"' not in cluster.get(self._server.address, f"/pages/{page}/lines"), f"a line that takes much {why} is in the log")
        await other.socket.close()
        return await Connection.seated(self._session, self._server.address, page, key)

    async def programs_end(self) -> None:
        """All programs are killed, as where the machine has no memory; and somebody sits down, before anybody else asks."""
        for program in self._server.programs:
            os.kill(program, signal.SIGKILL)
        other = await Connection.seated(self._session, self._server.address, "calm")
        await other.socket.close()

    async def visits(self) -> None:
        """Somebody comes and reads. Twelve come, sit down, and go: each gives its seat back."""
        cluster.put(self._server.address, "visited", "<p>ab</p>")
        reader = await Connection.to(self._session, self._server.address, "visited")
        await reader.say('{"key":"somebody who reads"}')
        await reader.say('{"ask":0,"line":{"do":"html"}}')
        sure("join" not in cluster.get(self._server.address, "/pages/visited/lines"), "who reads takes a seat")
        await reader.socket.close()
        for _ in range(12):
            connection = await Connection.seated(self._session, self._server.address, "visited")
            await connection.socket.close()
        async with asyncio.timeout(SOON):
            while cluster.get(self._server.address, "/pages/visited/lines").count('"log":{"leave":true}') < 12:
                await asyncio.sleep(0.1)

    async def crowd(self) -> None:
        """Twelve sit down at once, and each writes."""
        connections = await asyncio.gather(*(Connection.seated(self._session, self._server.address, "calm") for _ in range(12)))
        answers = await asyncio.gather(*(connection.do(do="text", at=1, text="c") for connection in connections))
        sure(all('"reply":"ok' in answer or '"error":"seat"' in answer for answer in answers), f"a crowd is answered {answers}")
        await asyncio.gather(*(connection.socket.close() for connection in connections))

    async def long_log(self) -> None:
        """Six hold seats, with something unsent, and take nothing; a seventh submits all the time. The log stays short, and can
        be run by itself."""
        cluster.put(self._server.address, "log", "<p>ab</p>")
        idle = [await Connection.seated(self._session, self._server.address, "log") for _ in range(6)]
        for connection in idle:
            await connection.do(do="text", at=1, text="q")
        busy = await Connection.seated(self._session, self._server.address, "log")
        for n in range(1500):
            if n % 3:
                await busy.do(do=("send", "take")[n % 3 - 1])
            elif '"error":"cut"' in (told := await busy.do(do="text", at=1, text="x")):
                busy.since = json.loads(told)["since"]
        async with asyncio.timeout(SOON):
            while '"reply":"ok' not in (told := await busy.do(do="text", at=1, text="x")):
                busy.since = json.loads(told).get("since", busy.since)
                await asyncio.sleep(0.1)
        size = len(cluster.get(self._server.address, "/pages/log/lines"))
        sure(size < 1.5 * MOST, f"a log grew to {size} bytes")
        for connection in (*idle, busy):
            await connection.socket.close()

    async def many_pages(self) -> None:
        """Opens more pages than there may be programs."""
        connections, statuses = [], []
        for n in range(PROGRAMS + 2):
            async with self._session.put(f"{self._url}/pages/many-{n}", data=b"<p>x</p>") as told:
                statuses.append(told.status)
            if told.status == 201:
                connection = await Connection.to(self._session, self._server.address, f"many-{n}")
                await connection.say('{"key":"nobody can guess it"}')
                connections.append(connection)
        sure(503 in statuses, f"more pages are open than may be: {statuses}")
        for connection in connections:
            await connection.socket.close()


    async def many_look(self) -> None:
        """Thirty look at once at a page that takes long to write. It is written for all together."""
        await self._long_page("looked-at")
        alone = await self._looked(1)
        together = await self._looked(30)
        sure(together < 10 * alone, f"one who looks waits {alone:.1f} s, and thirty {together:.1f} s")

    async def _looked(self, count: int) -> float:
        """The seconds in which so many are told how long that page is."""
        async def look() -> None:
            async with self._session.head(f"{self._url}/pages/looked-at") as told:
                sure(told.status == 200 and int(told.headers["Content-Length"]) > 20_000_000, f"who looks is answered {told.status}")
        began = asyncio.get_running_loop().time()
        await asyncio.gather(*(look() for _ in range(count)))
        return asyncio.get_running_loop().time() - began

    async def many_connections(self) -> None:
        """Twenty more than there may be."""
        connections = [await self._connected(b"") for _ in range(CONNECTIONS + 20)]
        await self._bystander.unharmed("more connections than there may be")
        late = await asyncio.gather(*(ended(reader, 2) for reader, _ in connections))
        sure(20 <= sum(late) < CONNECTIONS, f"of {len(late)} connections {sum(late)} are ended")
        for _, writer in connections:
            writer.close()


def marks(do: str, length: int, count: int) -> list[dict[str, object]]:
    """Marks set over all of a page's letters, or taken off them."""
    return [{"do": do, "from": 1, "to": length, "tag": "b", "attrs": [["id", str(n)]]} for n in range(count)]


async def silent(answer: Awaitable[str]) -> bool:
    """Whether there is no answer for a while."""
    try:
        await asyncio.wait_for(answer, 2)
    except asyncio.TimeoutError:
        return True
    return False


async def hears(reader: asyncio.StreamReader, text: bytes) -> None:
    """Until this comes, or the end."""
    heard = b""
    while text not in heard and (more := await reader.read(65536)):
        heard = heard[-len(text):] + more


async def ended(reader: asyncio.StreamReader, late: float = LATE) -> bool:
    """Whether the other side ends the connection."""
    try:
        async with asyncio.timeout(late):
            while await reader.read(65536):
                pass
    except TimeoutError:
        return False
    except OSError:
        pass
    return True


@contextmanager
def besieged(program: Path, folder: Path, log: str) -> Iterator[cluster.Server]:
    server = cluster.Server(folder, [
        "--program", str(program), "--log", log, "--programs", str(PROGRAMS), "--connections", str(CONNECTIONS),
        "--memory", str(512 * MEGABYTE), "--waiting", str(32 * MEGABYTE), "--page", str(2 * MEGABYTE), "--most", str(MOST),
        "--share", "0.0001"])
    server.start()
    try:
        server.ready()
        cluster.put(server.address, "calm", "<p>ab</p>")
        yield server
        sure(server.finish() == 0, "the server doesn't end when it is told to")
        sure("Traceback" not in server.complaints, "the server shows where it was when somebody sent what it shouldn't")
    except BaseException:
        print(server.complaints)
        raise
    finally:
        server.end()


async def _attack(server: cluster.Server, with_sieges: bool) -> int:
    async with ClientSession() as session:
        bystander = await Bystander.on(session, server.address)
        adversary = Adversary(session, server.address, bystander)
        await adversary.say_everything()
        await adversary.ask_everything()
        if with_sieges:
            await Siege(session, server, bystander).all()
        return adversary.sent


def attack(program: Path) -> None:
    with tempfile.TemporaryDirectory(prefix="vemodel-") as folder:
        with besieged(program, Path(folder), str(Path(folder) / "pages.sqlite")) as server:
            sent = asyncio.run(_attack(server, with_sieges=True))
    print(f"service: adversary: ok: {sent} messages and 18 sieges, each answered, refused or ended")


def without_a_database(program: Path, folder: Path) -> None:
    """A server that waits for its database ends when it is told to."""
    server = cluster.Server(folder, ["--program", str(program), "--log", "postgresql://nobody@127.0.0.1:1/none"])
    server.start()
    try:
        time.sleep(2)
        sure(server.finish() in (0, -signal.SIGTERM), "a server without its database doesn't end well")
    finally:
        server.end()


def attack_postgres(program: Path) -> None:
    from database import Postgres, programs
    at = programs()
    assert at is not None
    with tempfile.TemporaryDirectory(prefix="vemodel-") as folder:
        without_a_database(program, Path(folder))
        base = Postgres(at, Path(folder))
        try:
            with besieged(program, Path(folder), base.log) as server:
                sent = asyncio.run(_attack(server, with_sieges=False))
        finally:
            base.stop()
    print(f"service: adversary: ok: {sent} messages, over PostgreSQL")
