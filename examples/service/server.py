#!/usr/bin/python3
"""The service: pages by HTTP, and lines by WebSocket. `README.md` says what it promises and shows its protocol."""
from __future__ import annotations

import argparse
import asyncio
import contextlib
import logging
import signal
import sys
from collections.abc import Awaitable, Callable, Coroutine
from pathlib import Path
from typing import Any

from aiohttp import ClientSession, web
from aiohttp.http_exceptions import HttpProcessingError

from access import Access, Gate, access
from asks import Limits
from costs import Costs
from homes import Homes
from log import Log, Lost
from log_sqlite import SqliteLog
from programs import PROGRAM, Bounds, Crowded, Programs
from service import Service
from watch import Watch, fitting
from window import Window
from wire import Bad, Wires
from world import Shared, Strange

ANYONE = "access:anyone"
LOOPBACK = ("127.0.0.1", "localhost", "[::1]")

Handler = Callable[[web.Request], Awaitable[web.StreamResponse]]


class Requests:
    """What stands before every request: the gate, who it is of, and what faults become."""

    def __init__(self, gate: Gate, allowed: Access, watch: Watch) -> None:
        self._gate, self._allowed, self._watch = gate, allowed, watch

    @web.middleware
    async def answer(self, request: web.Request, handler: Handler) -> web.StreamResponse:
        """The answer to a connection's one request."""
        self._watch.heard(request.protocol)
        hold(request)
        try:
            answer = await self._answer(request, handler)
        except web.HTTPException as told:
            told.force_close()
            raise
        if not answer.prepared:
            answer.force_close()
        return answer

    async def _answer(self, request: web.Request, handler: Handler) -> web.StreamResponse:
        self._gate.check(request)
        visitor = self._allowed(request)
        if visitor is None:
            raise web.HTTPUnauthorized(text="say who you are\n", headers={"WWW-Authenticate": "Bearer"})
        request["visitor"] = visitor
        try:
            return await handler(request)
        except (Lost, Crowded) as fault:
            raise web.HTTPServiceUnavailable(text=f"{fault}\n") from fault
        except TimeoutError as fault:
            raise web.HTTPRequestTimeout(text="the rest of the request didn't come\n") from fault
        except (Bad, UnicodeError) as fault:
            raise web.HTTPBadRequest(text=f"{fault}\n") from fault
        except Strange as fault:
            raise web.HTTPInternalServerError(text=f"{fault}\n") from fault


def hold(request: web.Request) -> None:
    """Nothing is read of what a connection sends ahead: aiohttp would keep it all. `Wire.begin` goes on, and `create`."""
    if "Upgrade" in request.headers and request.transport is not None:
        assert isinstance(request.transport, asyncio.ReadTransport)
        request.transport.pause_reading()
    elif not request.body_exists:
        request.protocol.close()


async def safe(request: web.Request, answer: web.StreamResponse) -> None:
    """Whatever a page says, a browser takes it for no script."""
    answer.headers.setdefault("X-Content-Type-Options", "nosniff")
    answer.headers.setdefault("Content-Security-Policy", "default-src 'none'; sandbox")
    answer.headers.setdefault("Cache-Control", "no-store")


def unless_broken(loop: asyncio.AbstractEventLoop, told: dict[str, Any]) -> None:
    """aiohttp pings in tasks of its own, and says so where a connection has just ended."""
    if not isinstance(told.get("exception"), ConnectionError):
        loop.default_exception_handler(told)


def is_ours(told: logging.LogRecord) -> bool:
    """aiohttp shows where it was when it met what is no request, or a connection that ended: strangers could fill a disk by it."""
    fault = told.exc_info[1] if told.exc_info else None
    return not isinstance(fault, (HttpProcessingError, web.RequestPayloadError, ConnectionError))


def on_postgres(given: argparse.Namespace) -> bool:
    return bool(given.log.startswith(("postgresql:", "postgres:")))


def engine(given: argparse.Namespace, homes: Homes) -> Log:
    if not on_postgres(given):
        return SqliteLog(Path(given.log), given.history)
    from log_postgres import PostgresLog  # which needs a package that SQLite doesn't
    return PostgresLog(given.log, given.listen, given.history, homes.heard, homes.ended, homes.lost)


def told_to_end() -> asyncio.Event:
    """What the signals set by which programs are ended."""
    stop = asyncio.Event()
    for number in signal.SIGTERM, signal.SIGINT:
        asyncio.get_running_loop().add_signal_handler(number, stop.set)
    return stop


async def done_before(stop: asyncio.Event, step: Coroutine[Any, Any, None]) -> bool:
    """Whether a step, which may wait for ever, is done before the server is told to end. Raises what it raises."""
    doing, told = asyncio.create_task(step), asyncio.create_task(stop.wait())
    await asyncio.wait((doing, told), return_when=asyncio.FIRST_COMPLETED)
    told.cancel()
    if doing.done():
        await doing
        return True
    doing.cancel()
    return False


def application(given: argparse.Namespace, service: Service, watch: Watch) -> web.Application:
    requests = Requests(Gate(given.listen, given.host, given.origin), access(given.access), watch)
    app = web.Application(client_max_size=given.page, middlewares=[requests.answer])
    app.add_routes([*service.routes(), *Window().routes()])
    app.on_response_prepare.append(safe)
    return app


async def serve(given: argparse.Namespace) -> None:
    """Until it is told to end; then what has come is answered."""
    stop = told_to_end()
    asyncio.get_running_loop().set_exception_handler(unless_broken)
    logging.getLogger("aiohttp.server").addFilter(is_ours)
    connections = fitting(given.connections, given.programs, 2 if on_postgres(given) else 1)
    if connections < given.connections:
        print(f"the system allows files for {connections} connections: see ulimit -n", file=sys.stderr, flush=True)
    homes, wires = Homes(), Wires()
    watch = Watch(wires, given.waiting)
    log = engine(given, homes)
    programs = Programs(given.program, given.programs, Bounds(given.memory, given.line), homes.spare)
    limits = Limits(given.cut, given.most, given.quiet, given.absent, given.turn, given.run, given.memory // 4)
    shared = Shared(log, programs, limits, Costs(given.share))
    async with contextlib.AsyncExitStack() as stack:
        homes.begin(shared)
        if not await done_before(stop, log.open()):
            return
        stack.push_async_callback(log.close)
        service = Service(given.listen, shared, homes, wires, watch, await stack.enter_async_context(ClientSession()))
        # What is packed would become a thousand times as long before anybody looks at it.
        runner = web.AppRunner(application(given, service, watch), access_log=None, auto_decompress=False)
        await runner.setup()
        stack.push_async_callback(runner.cleanup)
        server = runner.server
        assert server is not None
        watch.bound(server, connections)
        host, _, port = given.listen.rpartition(":")
        site = web.TCPSite(runner, host.strip("[]"), int(port), backlog=4096, shutdown_timeout=1)
        await site.start()
        print(f"http://{given.listen}", flush=True)
        if given.access == ANYONE and host not in LOOPBACK:
            print("whoever reaches this address may read, write and delete every page: see --access", file=sys.stderr, flush=True)
        tasks = [asyncio.create_task(part) for part in (homes.sweep(), watch.run(server))]
        await stop.wait()
        await site.stop()
        await homes.finish()
        await wires.close()
        for task in tasks:
            task.cancel()


def words() -> argparse.ArgumentParser:
    known = argparse.ArgumentParser(description=__doc__)
    known.add_argument("--listen", default="127.0.0.1:8080", metavar="HOST:PORT", help="where other servers reach this one, too")
    known.add_argument("--host", action="append", default=[], help="another name that requests may call it by")
    known.add_argument("--origin", action="append", default=[], help="from where pages of others may call it")
    known.add_argument("--access", default=ANYONE, metavar="MODULE:FUNCTION", help="who may read and write what")
    known.add_argument("--log", default="pages.sqlite", help="a file of SQLite, or a database: postgresql://...")
    known.add_argument("--history", action="store_true", help="keep the lines before a cut")
    known.add_argument("--program", type=Path, default=PROGRAM)
    known.add_argument("--programs", type=int, default=100, help="that run at once: one for each page that is open")
    known.add_argument("--memory", type=int, default=2 << 30, metavar="BYTES", help="of each of them")
    known.add_argument("--line", type=float, default=2, metavar="SECONDS", help="of a processor, that a line may take")
    known.add_argument("--share", type=float, default=0.125, help="of a processor, that the lines of one person may take in the long run")
    known.add_argument("--waiting", type=int, default=256 << 20, metavar="BYTES", help="that all connections together may let wait")
    known.add_argument("--connections", type=int, default=15_000, help="that there are at once")
    known.add_argument("--page", type=int, default=1 << 20, metavar="BYTES", help="of a new page")
    known.add_argument("--cut", type=int, default=1 << 20, metavar="BYTES", help="cut a longer log at a quiet moment")
    known.add_argument("--most", type=int, default=16 << 20, metavar="BYTES", help="cut a longer log at once")
    known.add_argument("--run", type=float, default=3, metavar="SECONDS", help="cut a log at once that takes a processor longer to run")
    known.add_argument("--quiet", type=float, default=5, metavar="SECONDS", help="without a line")
    known.add_argument("--absent", type=float, default=120, metavar="SECONDS", help="after which a seat's holder loses it")
    known.add_argument("--turn", type=float, default=0.5, metavar="SECONDS", help="without a line, after which a seat may be another's")
    return known


def main() -> None:
    given = words().parse_args()
    try:
        asyncio.run(serve(given))
    except Lost as fault:
        raise SystemExit(f"{given.log}: {fault}") from fault


if __name__ == "__main__":
    main()
