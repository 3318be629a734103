"""A server's session of PostgreSQL: how it lives, and how others learn that it doesn't any more. `log_postgres.py` says what
for."""
from __future__ import annotations

import asyncio
import contextlib
import os
import socket
import sys
from collections.abc import AsyncIterator, Callable, Coroutine
from dataclasses import dataclass, field
from typing import Any, TypeVar

import psycopg

from log import Lost, Notice

SILENT = 10.0
SURE = 7.0
BEAT = 1.0
LOCKS = 0x76656D6F  # our advisory locks, among others' in the same database

TABLES = f"""
SELECT pg_advisory_xact_lock({LOCKS}, 0);
CREATE TABLE IF NOT EXISTS pages (
    page text PRIMARY KEY, first bigint NOT NULL, next bigint NOT NULL, owner int NOT NULL DEFAULT 0);
CREATE TABLE IF NOT EXISTS lines (page text, number bigint, line text NOT NULL, PRIMARY KEY (page, number));
CREATE SEQUENCE IF NOT EXISTS servers AS int;
"""

SERVERS = f"""
SELECT objid::bigint, pid, application_name, state <> 'active' AND clock_timestamp() - state_change > make_interval(secs => {SILENT})
FROM pg_locks JOIN pg_stat_activity USING (pid)
WHERE locktype = 'advisory' AND classid = {LOCKS} AND objid <> 0 AND objsubid = 2 AND granted
    AND pg_locks.database = (SELECT oid FROM pg_database WHERE datname = current_database())
"""

Connection = psycopg.AsyncConnection[tuple[Any, ...]]
T = TypeVar("T")


@dataclass(frozen=True)
class Session:
    """What a server has of the database. The first connection holds its lock, and all that it writes goes through it."""
    writer: Connection
    reader: Connection
    listener: Connection
    me: int
    tasks: set[asyncio.Task[Any]] = field(default_factory=set)


class Sessions:
    """One session after the other, for as long as the server runs."""

    def __init__(self, base: str, address: str, heard: Notice, gone: Callable[[str], None], lost: Callable[[], None]) -> None:
        """`heard` is told of pages that have new lines, `gone` of those that were deleted, and `lost` that all pages of this
        server may be others' now."""
        self._base, self._address = base, address
        self._heard, self._gone, self._lost = heard, gone, lost
        self._session: Session | None = None
        self._beaten = 0.0
        self._changed: dict[str, int] = {}
        self._change = asyncio.Event()
        self._watched: set[str] = set()

    async def open(self) -> None:
        """Returns once there is a session; later ones are made as they are needed."""
        opened = asyncio.Event()
        self._life = asyncio.create_task(self._live(opened))
        waiting = asyncio.create_task(opened.wait())
        await asyncio.wait((self._life, waiting), return_when=asyncio.FIRST_COMPLETED)

    async def _live(self, opened: asyncio.Event) -> None:
        while True:
            try:
                async with self._connected() as session, asyncio.TaskGroup() as tasks:
                    self._session, self._beaten = session, asyncio.get_running_loop().time()
                    opened.set()
                    for part in self._beat, self._listen, self._tell:
                        tasks.create_task(part(session))
            except* Exception as faults:
                print(f"no session of the database any more: {faults.exceptions[0]!r}", file=sys.stderr, flush=True)
            finally:
                self._lost()
            await asyncio.sleep(0.2)

    @contextlib.asynccontextmanager
    async def _connected(self) -> AsyncIterator[Session]:
        async with contextlib.AsyncExitStack() as stack:
            made: list[Connection] = []
            for name in self._address, "reader of " + self._address, "listener of " + self._address:
                connection = await psycopg.AsyncConnection.connect(
                    self._base, autocommit=True, connect_timeout=5, application_name=name)
                stack.push_async_callback(connection.close)
                made.append(connection)
            writer, reader, listener = made
            await writer.execute(TABLES)
            row = await (await writer.execute("SELECT nextval('servers')")).fetchone()
            assert row is not None
            await writer.execute("SELECT pg_advisory_lock(%s::int, %s::int)", (LOCKS, row[0]))
            await reader.execute("SET synchronous_commit = off")  # it writes nothing, and notifies
            await listener.execute("LISTEN lines")
            session = Session(writer, reader, listener, row[0])
            try:
                yield session
            finally:
                # Who waits for an answer on a connection that is closed waits for ever, so first it gets the end of it.
                self._session = None
                for connection in made:
                    hang_up(connection)
                if session.tasks:
                    await asyncio.wait(session.tasks)

    async def _beat(self, session: Session) -> None:
        """Shows that this server lives, ends sessions of those that have been silent, and looks for missed notices."""
        while True:
            began = asyncio.get_running_loop().time()
            async with asyncio.timeout(SURE):
                servers = await (await session.writer.execute(SERVERS)).fetchall()
                self._beaten = began
                for number, pid, _, silent in servers:
                    if silent and number != session.me:
                        await session.writer.execute("SELECT pg_terminate_backend(%s)", (pid,))
                await self._look(session)
            await asyncio.sleep(BEAT)

    async def _look(self, session: Session) -> None:
        watched = list(self._watched)
        if not watched:
            return
        rows = await session.reader.execute("SELECT page, next FROM pages WHERE page = ANY(%s)", (watched,))
        found = {page: number for page, number in await rows.fetchall()}
        for page in watched:
            if page in found:
                self._heard(page, found[page])
            else:
                self._gone(page)

    async def _listen(self, session: Session) -> None:
        async for notice in session.listener.notifies():
            number, page = notice.payload.split(" ", 1)
            if page in self._watched:
                self._heard(page, int(number))

    async def _tell(self, session: Session) -> None:
        """Notifies of what was committed, all pages that changed meanwhile at once. A commit that notifies would make
        every other one wait for it, so this is a transaction of its own, which waits for no disk."""
        while True:
            await self._change.wait()
            self._change.clear()
            changed, self._changed = self._changed, {}
            await session.reader.execute(
                "SELECT pg_notify('lines', payload) FROM unnest(%s::text[]) AS payload",
                ([f"{number} {page}" for page, number in changed.items()],))

    def sure(self) -> bool:
        return self._session is not None and asyncio.get_running_loop().time() - self._beaten < SURE

    async def do(self, work: Callable[[Session], Coroutine[Any, Any, T]]) -> T:
        """Does it to its end, even where who wanted it has gone: a connection that is left amid an answer is of no use."""
        session = self._session
        if session is None:
            raise Lost("no database")
        task = asyncio.create_task(work(session))
        session.tasks.add(task)
        task.add_done_callback(session.tasks.discard)
        try:
            return await asyncio.shield(task)
        except (psycopg.Error, OSError) as fault:
            raise Lost(str(fault)) from fault

    def tell(self, page: str, number: int) -> None:
        """Other servers are to learn that the page's next number is this one."""
        self._changed[page] = number
        self._change.set()

    def watch(self, pages: set[str]) -> None:
        self._watched = pages

    async def close(self) -> None:
        self._life.cancel()
        with contextlib.suppress(asyncio.CancelledError):
            await self._life


def hang_up(connection: Connection) -> None:
    """Ends a connection's socket, so that whoever waits for its answer is told."""
    with contextlib.suppress(psycopg.Error, OSError):
        with socket.socket(fileno=os.dup(connection.fileno())) as line:
            line.shutdown(socket.SHUT_RDWR)
