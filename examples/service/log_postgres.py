"""The log in PostgreSQL: any number of servers on any machines that reach the database.

**Who writes a page.** A server has one session for all that it writes, and for as long as that session lives it holds an
advisory lock with its number, a fresh one for each session. The row of a page names the number of the server that has
it. A number without a session is a dead server's for ever, so that another one may put its own number there, by
comparing and setting.

- A server that dies: the database ends its session at once, as its sockets close.
- One that is paused, or whose machine is gone: its session has been silent for `SILENT` seconds, as each server asks
  something every second; any other one ends that session.
- One that comes back from a pause: its session is gone, and with it all that it had. Until it notices it can't append,
  since lines go through that session; and had they gone another way, the row names another owner or another next
  number, and the update that comes before the lines finds no row. From `SURE` seconds without an answer of the database
  on it shows nothing either (by its own clock, which a paused virtual machine may stop: then what it shows may be old,
  while what it appends still can't be wrong).

**What it promises.** An answered line is committed: it is as safe as the database's `synchronous_commit` makes it, which
is by default that a crash of the database's machine loses none. Notifications are hints, sent after the commit; each
server also looks every second at the pages that somebody follows there.
"""
from __future__ import annotations

import contextlib
import hashlib
from collections.abc import Callable

from log import MUCH, SOME, Batch, Commits, Elsewhere, Lost, Notice, Span
from session_postgres import SERVERS, Session, Sessions

# The update is the fence: it finds the row only where the page is ours and its next number is the one that we think.
APPEND = """
WITH batch AS (
    SELECT * FROM unnest(%(pages)s::text[], %(numbers)s::bigint[], %(nexts)s::bigint[], %(firsts)s::bigint[])
        AS batch(page, number, next, first)),
fence AS (
    UPDATE pages SET next = batch.next, first = batch.first FROM batch
    WHERE pages.page = batch.page AND pages.next = batch.number AND pages.owner = %(me)s RETURNING pages.page),
kept AS (
    INSERT INTO lines SELECT page, number, line
    FROM unnest(%(of)s::text[], %(at)s::bigint[], %(lines)s::text[]) AS line(page, number, line) JOIN fence USING (page))
SELECT page FROM fence
"""

READ = """
SELECT number, line FROM (
    SELECT number, line, sum(length(line)) OVER (ORDER BY number) - length(line) AS before
    FROM lines WHERE page = %s AND number >= %s ORDER BY number LIMIT %s) AS line
WHERE before < %s ORDER BY number
"""


class PostgresLog:
    def __init__(self, base: str, address: str, history: bool, heard: Notice, gone: Callable[[str], None],
                 lost: Callable[[], None]) -> None:
        """`heard`, `gone` and `lost` are those of `Sessions`."""
        self._history = history
        self._sessions = Sessions(base, address, heard, gone, lost)
        self._do, self.sure, self.watch = self._sessions.do, self._sessions.sure, self._sessions.watch

    async def open(self) -> None:
        self._commits = Commits(self._commit)
        await self._sessions.open()

    async def create(self, page: str, line: str) -> bool:
        async def work(session: Session) -> bool:
            made = await session.writer.execute(
                "WITH made AS (INSERT INTO pages VALUES (%(page)s, 0, 1) ON CONFLICT DO NOTHING RETURNING page) "
                "INSERT INTO lines SELECT page, 0, %(line)s FROM made", {"page": page, "line": line})
            return made.rowcount == 1
        return await self._do(work)

    async def delete(self, page: str) -> None:
        async def work(session: Session) -> None:
            await session.writer.execute(
                "WITH gone AS (DELETE FROM pages WHERE page = %s AND owner = %s RETURNING page) "
                "DELETE FROM lines USING gone WHERE lines.page = gone.page", (page, session.me))
        await self._do(work)

    async def names(self, after: str, most: int) -> list[str]:
        async def work(session: Session) -> list[str]:
            rows = await session.reader.execute(
                'SELECT page FROM pages WHERE page COLLATE "C" > %s ORDER BY page COLLATE "C" LIMIT %s', (after, most))
            return [row[0] for row in await rows.fetchall()]
        return await self._do(work)

    async def span(self, page: str) -> Span | None:
        async def work(session: Session) -> Span | None:
            row = await (await session.reader.execute("SELECT first, next FROM pages WHERE page = %s", (page,))).fetchone()
            return Span(*row) if row else None
        return await self._do(work)

    async def take(self, page: str, here: bool) -> Span | None:
        async def work(session: Session) -> Span | None:
            while True:
                row = await (await session.writer.execute("SELECT owner FROM pages WHERE page = %s", (page,))).fetchone()
                if row is None:
                    return None
                # Asked after the owner: who isn't among them now will never be.
                servers = await (await session.writer.execute(SERVERS)).fetchall()
                live = {number: address for number, _, address, _ in servers}
                owner = row[0]
                if owner in live and owner != session.me:
                    raise Elsewhere(live[owner])
                if owner not in live and not here:
                    best = max(live, key=lambda server: hashlib.sha256(f"{server} {page}".encode()).digest())
                    if best != session.me:
                        raise Elsewhere(live[best])
                taken = await (await session.writer.execute(
                    "UPDATE pages SET owner = %s WHERE page = %s AND owner = %s RETURNING first, next",
                    (session.me, page, owner))).fetchone()
                if taken is not None:
                    return Span(*taken)
        return await self._do(work)

    async def release(self, page: str) -> None:
        async def work(session: Session) -> None:
            await session.writer.execute("UPDATE pages SET owner = 0 WHERE page = %s AND owner = %s", (page, session.me))
        await self._do(work)

    async def append(self, batch: Batch) -> None:
        await self._commits.append(batch)

    async def _commit(self, batches: list[Batch]) -> set[str]:
        async def work(session: Session) -> set[str]:
            rows = [(b.page, b.number + n, line) for b in batches for n, line in enumerate(b.lines)]
            kept = await (await session.writer.execute(APPEND, {
                "me": session.me,
                "pages": [b.page for b in batches],
                "numbers": [b.number for b in batches],
                "nexts": [b.number + len(b.lines) for b in batches],
                "firsts": [b.first for b in batches],
                "of": [row[0] for row in rows],
                "at": [row[1] for row in rows],
                "lines": [row[2] for row in rows],
            })).fetchall()
            return {row[0] for row in kept}
        pages = await self._do(work)
        for b in batches:
            if b.page in pages:
                self._sessions.tell(b.page, b.number + len(b.lines))
        if not self._history:
            for b in batches:
                if b.first >= b.number and b.page in pages:
                    await self._forget(b)
        return pages

    async def _forget(self, cut: Batch) -> None:
        """Deletes what stood before an `open`. Where this fails, the page's next cut does it."""
        async def work(session: Session) -> None:
            await session.writer.execute("DELETE FROM lines WHERE page = %s AND number < %s", (cut.page, cut.first))
        with contextlib.suppress(Lost):
            await self._do(work)

    async def read(self, page: str, number: int) -> list[tuple[int, str]]:
        async def work(session: Session) -> list[tuple[int, str]]:
            rows = await session.reader.execute(READ, (page, number, SOME, MUCH))
            return [(row[0], row[1]) for row in await rows.fetchall()]
        return await self._do(work)

    async def close(self) -> None:
        await self._commits.close()
        await self._sessions.close()
