"""The log in a file of SQLite: one machine, one server, nothing to set up.

**What it promises.** An answered line is in the file, synced to the disk (`synchronous=FULL`), before it is answered;
after a crash of the server or the machine the file opens with every answered line. One server has the file: it keeps
SQLite's exclusive lock, which ends with the process, so that another one is refused at its start.
"""
from __future__ import annotations

import asyncio
import sqlite3
from collections.abc import Callable
from concurrent.futures import ThreadPoolExecutor
from pathlib import Path
from typing import TypeVar

from log import Batch, Commits, Lost, Span, some

TABLES = """
CREATE TABLE IF NOT EXISTS pages (page TEXT PRIMARY KEY, first INTEGER NOT NULL, next INTEGER NOT NULL) WITHOUT ROWID;
CREATE TABLE IF NOT EXISTS lines (page TEXT, number INTEGER, line TEXT NOT NULL, PRIMARY KEY (page, number)) WITHOUT ROWID;
"""

T = TypeVar("T")


class SqliteLog:
    """Every use of the file is by one thread, so that nothing waits for a lock."""

    def __init__(self, file: Path, history: bool) -> None:
        self._file, self._history = file, history
        self._thread = ThreadPoolExecutor(1)
        self._commits: Commits | None = None

    async def open(self) -> None:
        await self._do(self._connect)
        self._commits = Commits(self._commit)

    def _connect(self) -> None:
        self._base = sqlite3.connect(self._file, timeout=1, isolation_level=None)
        for pragma in "locking_mode=EXCLUSIVE", "journal_mode=WAL", "synchronous=FULL":
            self._base.execute("PRAGMA " + pragma)
        self._base.executescript(TABLES)

    async def _do(self, call: Callable[[], T]) -> T:
        try:
            return await asyncio.get_running_loop().run_in_executor(self._thread, call)
        except sqlite3.Error as fault:
            raise Lost(str(fault)) from fault

    def sure(self) -> bool:
        return True

    async def create(self, page: str, line: str) -> bool:
        def call() -> bool:
            with self._base:
                self._base.execute("BEGIN IMMEDIATE")
                made = self._base.execute("INSERT INTO pages VALUES (?, 0, 1) ON CONFLICT DO NOTHING", (page,))
                if made.rowcount:
                    self._base.execute("INSERT INTO lines VALUES (?, 0, ?)", (page, line))
                return made.rowcount == 1
        return await self._do(call)

    async def delete(self, page: str) -> None:
        def call() -> None:
            with self._base:
                self._base.execute("BEGIN IMMEDIATE")
                self._base.execute("DELETE FROM pages WHERE page = ?", (page,))
                self._base.execute("DELETE FROM lines WHERE page = ?", (page,))
        await self._do(call)

    async def names(self, after: str, most: int) -> list[str]:
        def call() -> list[str]:
            rows = self._base.execute("SELECT page FROM pages WHERE page > ? ORDER BY page LIMIT ?", (after, most))
            return [row[0] for row in rows.fetchall()]
        return await self._do(call)

    async def span(self, page: str) -> Span | None:
        def call() -> Span | None:
            row = self._base.execute("SELECT first, next FROM pages WHERE page = ?", (page,)).fetchone()
            return Span(*row) if row else None
        return await self._do(call)

    async def take(self, page: str, here: bool) -> Span | None:
        return await self.span(page)

    async def release(self, page: str) -> None:
        pass

    async def append(self, batch: Batch) -> None:
        assert self._commits is not None
        await self._commits.append(batch)

    async def _commit(self, batches: list[Batch]) -> set[str]:
        def call() -> set[str]:
            kept = set()
            with self._base:
                self._base.execute("BEGIN IMMEDIATE")
                for b in batches:
                    told = self._base.execute("UPDATE pages SET first = ?, next = ? WHERE page = ? AND next = ?",
                                              (b.first, b.number + len(b.lines), b.page, b.number))
                    if told.rowcount == 0:
                        continue
                    self._base.executemany("INSERT INTO lines VALUES (?, ?, ?)",
                                           ((b.page, b.number + n, line) for n, line in enumerate(b.lines)))
                    if b.first >= b.number and not self._history:
                        self._base.execute("DELETE FROM lines WHERE page = ? AND number < ?", (b.page, b.first))
                    kept.add(b.page)
            return kept
        return await self._do(call)

    async def read(self, page: str, number: int) -> list[tuple[int, str]]:
        def call() -> list[tuple[int, str]]:
            return some(self._base.execute(
                "SELECT number, line FROM lines WHERE page = ? AND number >= ? ORDER BY number", (page, number)))
        return await self._do(call)

    def watch(self, pages: set[str]) -> None:
        """There are no other servers."""

    async def close(self) -> None:
        if self._commits is not None:
            await self._commits.close()
        await self._do(lambda: self._base.close())
        self._thread.shutdown()
