"""Pages by HTTP, and lines by WebSocket."""
from __future__ import annotations

import asyncio
import contextlib
from collections.abc import AsyncIterator, Awaitable, Callable
from urllib.parse import unquote

from aiohttp import ClientError, ClientSession, ClientTimeout, ClientWebSocketResponse, WSMsgType, web

from access import MOST_NAME, Visitor
from asks import Enter, Rise, Show
from homes import Homes
from log import Gone, Lost, Span
from page import Page
from programs import Ended
from seats import SITES, Line, Seats, digest, spelled
from talk import Talk, together
from watch import Watch
from wire import GOODBYE, Bad, Wire, Wires, number_of, said
from world import Shared

ANSWER = 6.0  # seconds that another server has for beginning to talk
BODY = 20.0  # seconds in which a page has to be sent
HELLO = 10.0  # seconds in which who writes has to say who it is
SOME = 100  # names that one reading gives, unless it asks for another number
MOST_SOME = 1000
HOP = "X-Vemodel-Hop"  # a request that another server handed on: it isn't handed on again
PIECE = 1 << 18  # bytes of a page that are sent at once
AGAIN = 1012  # the code by which a connection ends where its client is to connect anew


class Service:
    def __init__(self, address: str, shared: Shared, homes: Homes, wires: Wires, watch: Watch, peers: ClientSession) -> None:
        self._address, self._shared, self._homes, self._wires, self._watch, self._peers = address, shared, homes, wires, watch, peers

    def routes(self) -> list[web.RouteDef]:
        return [
            web.get("/pages", self.names),
            web.put("/pages/{page}", self.create),
            web.get("/pages/{page}", self.show),
            web.delete("/pages/{page}", self.delete),
            web.get("/pages/{page}/lines", self.lines),
            web.get("/pages/{page}/follow", self.follow),
            web.get("/pages/{page}/edit", self.edit),
            web.get("/metrics", self.metrics),
        ]

    # HTTP

    async def names(self, request: web.Request) -> web.Response:
        """The pages that the visitor may read, by name, after one and so many. `next` is where there are more."""
        most = max(1, min(number_of(request.query.get("most"), SOME), MOST_SOME))
        after = request.query.get("after", "")
        if not after.isprintable():
            raise Bad("no name")
        found: list[str] = []
        while len(found) <= most and (some := await self._shared.log.names(after, MOST_SOME)):
            found += filter(visitor_of(request).reads, some)
            after = some[-1]
        more = {"next": found[most - 1]} if len(found) > most else {}
        return web.json_response({"pages": found[:most], **more})

    async def create(self, request: web.Request) -> web.Response:
        name = named(request, write=True)
        if "Content-Encoding" in request.headers:
            raise web.HTTPUnsupportedMediaType(text="a page is sent as it is\n")
        async with asyncio.timeout(BODY):
            text = (await request.read()).decode()
        request.protocol.close()  # what is sent behind it isn't read
        line = spelled({"do": "open", "page": text, "sites": SITES, "log": Seats().told()})
        core = await self._shared.programs.start()
        try:
            reply = await core.open(line)
        except Ended as fault:
            raise web.HTTPInsufficientStorage(text=f"{fault}\n") from fault
        finally:
            await core.close()
        if not reply.startswith("ok"):
            raise web.HTTPUnprocessableEntity(text=reply + "\n")
        if not await self._shared.log.create(name, line):
            raise web.HTTPConflict(text="there is such a page\n")
        return web.Response(status=201, text=reply + "\n")

    async def show(self, request: web.Request) -> web.StreamResponse:
        """The committed page."""
        name = named(request)

        async def here(taken: bool) -> web.StreamResponse:
            told = await asyncio.shield((await self._homes.page(name, taken)).put(Show()))  # others may wait for it, too
            if "error" in told:
                raise web.HTTPInsufficientStorage(text=f"{told['why']}\n")
            answer = web.StreamResponse(headers={"Content-Type": "text/plain; charset=utf-8", "X-Vemodel-Next": str(told["next"])})
            answer.content_length = len(told["page"])
            return await in_pieces(request, answer, told["page"])

        return await self._at_home(request, name, here)

    async def delete(self, request: web.Request) -> web.StreamResponse:
        name = named(request, write=True)

        async def here(taken: bool) -> web.StreamResponse:
            await self._homes.delete(name, taken)
            return web.Response(status=204)

        return await self._at_home(request, name, here)

    async def lines(self, request: web.Request) -> web.StreamResponse:
        """The log from a number on, or from the newest `open`: what the program is to run for the page."""
        name, span, number = await self._span(request)
        answer = web.StreamResponse(headers={"Content-Type": "application/jsonl; charset=utf-8"})
        answer.force_close()
        await answer.prepare(request)
        while number < span.next and (rows := await self._shared.log.read(name, number)):
            await answer.write("".join(line + "\n" for _, line in rows).encode())
            number = rows[-1][0] + 1
        return answer

    async def metrics(self, request: web.Request) -> web.Response:
        if not visitor_of(request).operates:
            raise web.HTTPForbidden(text="not yours to see\n")
        pages = list(self._homes.pages.values())
        told = {
            "pages": len(pages), "programs": self._shared.programs.running, "connections": len(self._wires),
            "lines_total": self._shared.lines, "bytes_total": self._shared.bytes,
            "waiting": sum(page.waiting for page in pages), "waiting_bytes": self._watch.waiting,
            "log_bytes": sum(page.log_bytes for page in pages),
        }
        return web.Response(text="".join(f"vemodel_{name} {value}\n" for name, value in told.items()))

    async def _span(self, request: web.Request) -> tuple[str, Span, int]:
        """The page, its log, and where in it to begin. A number that the log hasn't reached is of a page that was deleted."""
        name = named(request)
        span = await self._shared.log.span(name)
        if span is None:
            raise web.HTTPNotFound(text="no such page\n")
        number = number_of(request.query.get("from"), span.first)
        return name, span, number if number <= span.next else span.first

    async def _at_home(self, request: web.Request, name: str,
                       here: Callable[[bool], Awaitable[web.StreamResponse]]) -> web.StreamResponse:
        async def there(address: str) -> web.StreamResponse:
            async with self._peers.request(request.method, f"http://{address}{request.path_qs}", headers=handed_on(request),
                                           timeout=ClientTimeout(ANSWER)) as answer:
                if answer.status == 503:
                    raise asyncio.TimeoutError
                kept = {name: answer.headers[name] for name in ("Content-Type", "X-Vemodel-Next") if name in answer.headers}
                return web.Response(status=answer.status, body=await answer.read(), headers=kept)

        return await self._homes.at_home(name, HOP in request.headers, here, there)

    # WebSocket

    @contextlib.asynccontextmanager
    async def _wire(self, request: web.Request) -> AsyncIterator[Wire]:
        wire = Wire()
        await wire.begin(request)
        self._wires.add(wire)
        try:
            # The answer has begun, so all that is left to say is that it ends.
            with contextlib.suppress(ConnectionError, ClientError, Lost, Gone, Bad, asyncio.TimeoutError):
                yield wire
        finally:
            self._wires.discard(wire)
            await wire.socket.close(code=AGAIN)

    async def follow(self, request: web.Request) -> web.WebSocketResponse:
        """Sends the page's lines from a number on, at whichever server."""
        name, span, number = await self._span(request)
        async with self._wire(request) as wire:
            with self._homes.following(name, span) as feed:
                await together(feed.follow(number, wire), listen(wire))
        return wire.socket

    async def edit(self, request: web.Request) -> web.WebSocketResponse:
        """Who writes. The page's own server hears it; any other one hands on what it hears."""
        name = named(request)

        async def here(taken: bool) -> web.WebSocketResponse:
            page = await self._homes.page(name, taken)
            async with self._wire(request) as wire:
                await self._hear(page, wire, visitor_of(request))
            return wire.socket

        async def there(address: str) -> web.WebSocketResponse:
            # A server that is paused takes connections, and answers nothing.
            peer = await asyncio.wait_for(self._peers.ws_connect(
                f"http://{address}{request.path_qs}", headers=handed_on(request), max_msg_size=0, timeout=GOODBYE), ANSWER)
            said_goodbye = False
            try:
                async with self._wire(request) as wire:
                    await hand_on(wire, peer)
                said_goodbye = wire.said_goodbye
            finally:
                # Only who says goodbye gives its seat back.
                await peer.close(code=1000 if said_goodbye else AGAIN)
            return wire.socket

        return await self._homes.at_home(name, HOP in request.headers, here, there)

    async def _hear(self, page: Page, wire: Wire, visitor: Visitor) -> None:
        try:
            async with asyncio.timeout(HELLO):
                text = await wire.hear()
            if text is None:
                return
            holder, number = introduced(said(text))
        except Bad as fault:
            await wire.tell({"error": "bad", "why": str(fault)})
            return
        entered = await page.put(Enter(holder))
        name = "".join(filter(str.isprintable, visitor.name))[:MOST_NAME]
        guest = page.presence.come(name, holder)
        page.seating.came(holder)
        try:
            await wire.tell({**entered, "who": guest.who, "name": name, "holder": holder, "server": self._address})
            span = Span(entered["open"], entered["next"])
            talk = Talk(page, wire, guest, visitor)
            with self._homes.following(page.name, span) as feed:
                lines = [] if number is None else [feed.follow(number if number <= span.next else span.first, wire)]
                await talk.run(*lines)
        finally:
            page.presence.go(guest)
            if page.seating.left(holder) and wire.said_goodbye:
                page.put(Rise(holder))


def visitor_of(request: web.Request) -> Visitor:
    visitor: Visitor = request["visitor"]
    return visitor


def named(request: web.Request, write: bool = False) -> str:
    """The page that is asked for, which the visitor may read, or write."""
    name = unquote(request.rel_url.raw_parts[2], errors="strict")
    if not 0 < len(name) <= 200 or not name.isprintable():
        raise web.HTTPBadRequest(text="a page's name has 1 to 200 printable characters\n")
    visitor = visitor_of(request)
    if not (visitor.writes if write else visitor.reads)(name):
        raise web.HTTPForbidden(text="not yours to write\n" if write else "not yours to read\n")
    return name


def introduced(hello: Line) -> tuple[str, int | None]:
    """The digest of the key of who comes, and the number from which on it wants lines, if it does."""
    key, start = hello.get("key"), hello.get("from")
    if not isinstance(key, str) or len(key) < 16:
        raise Bad("a key has 16 characters or more")
    return digest(key), None if start is None else number_of(start)


def handed_on(request: web.Request) -> dict[str, str]:
    """What another server needs to see for itself who asks."""
    return {HOP: "1", **{name: request.headers[name] for name in ("Authorization", "Cookie") if name in request.headers}}


async def in_pieces(request: web.Request, answer: web.StreamResponse, body: bytes) -> web.StreamResponse:
    """Sends what others are sent, too, as fast as it is taken: so it isn't copied for each."""
    answer.force_close()
    await answer.prepare(request)
    for begin in range(0, len(body) if request.method == "GET" else 0, PIECE):
        await answer.write(body[begin:begin + PIECE])
    return answer


async def listen(wire: Wire) -> None:
    """Who follows has nothing to say."""
    while await wire.hear() is not None:
        pass


async def hand_on(wire: Wire, peer: ClientWebSocketResponse) -> None:
    async def there() -> None:
        while (text := await wire.hear()) is not None:
            await peer.send_str(text)

    async def back() -> None:
        async for told in peer:
            if told.type is WSMsgType.TEXT:
                await wire.send(told.data)

    await together(there(), back())
