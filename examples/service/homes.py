"""The pages of a server, and at which server each of the others is."""
from __future__ import annotations

import asyncio
import contextlib
from collections.abc import Awaitable, Callable, Iterator
from typing import TypeVar
from weakref import WeakValueDictionary

from aiohttp import ClientError, web

from feed import Feed
from log import Elsewhere, Lost, Span
from page import Page
from world import Shared

PATIENCE = 20.0  # seconds for which a page's server is looked for
IDLE = 60.0  # seconds after which a page that nobody wants is left to any server
LEFT = 1.0  # and where its program is needed for another page

T = TypeVar("T")


class Homes:
    def __init__(self) -> None:
        self.pages: dict[str, Page] = {}
        self._feeds: dict[str, Feed] = {}
        self._elsewhere: dict[str, str] = {}  # where pages of others were when somebody last asked
        self._doors: WeakValueDictionary[str, asyncio.Lock] = WeakValueDictionary()
        self._shared: Shared

    def begin(self, shared: Shared) -> None:
        self._shared = shared

    # Pages of this server

    async def page(self, name: str, here: bool) -> Page:
        """The page, which this server is the one to write. Raises `Elsewhere` where it isn't; `here` means that it is to be
        unless another server lives that has it."""
        async with self._door(name):
            if name in self.pages:
                return self.pages[name]
            span = await self._take(name, here)
            page = Page(name, self._shared, self._feed(name, span), self._gone)
            try:
                await page.open(span)
            except BaseException:
                self._leave_feed(name)
                raise
            self.pages[name] = page
            self._watch()
            return page

    async def _take(self, name: str, here: bool) -> Span:
        if name in self._elsewhere and not here:
            raise Elsewhere(self._elsewhere[name])
        try:
            span = await self._shared.log.take(name, here)
        except Elsewhere as other:
            self._elsewhere[name] = other.address
            raise
        if span is None:
            raise web.HTTPNotFound(text="no such page\n")
        return span

    def _door(self, name: str) -> asyncio.Lock:
        """One opening or closing of a page at a time."""
        door = self._doors.get(name)
        if door is None:
            door = self._doors[name] = asyncio.Lock()
        return door

    def _gone(self, page: Page) -> None:
        if self.pages.get(page.name) is page:
            del self.pages[page.name]
        self._leave_feed(page.name)

    def lost(self) -> None:
        """Whatever this server wrote may be another's."""
        for page in list(self.pages.values()):
            page.give_up()

    async def delete(self, name: str, here: bool) -> None:
        """Also of a page that can't be opened."""
        async with self._door(name):
            if name in self.pages:
                await self.pages[name].close()
            await self._take(name, here)
            await self._shared.log.delete(name)
            self.ended(name)

    async def _leave(self, page: Page) -> None:
        async with self._door(page.name):
            await page.close()
            with contextlib.suppress(Lost):
                await self._shared.log.release(page.name)

    async def sweep(self) -> None:
        """Leaves pages that nobody wants, and forgets where others are."""
        while True:
            await asyncio.sleep(IDLE / 4)
            self._elsewhere.clear()
            self._shared.costs.forget()
            for page in [page for page in self.pages.values() if page.idle >= IDLE]:
                await self._leave(page)

    async def spare(self) -> bool:
        """Leaves the page that nobody has wanted for longest; False where all are wanted."""
        page = max(self.pages.values(), key=lambda page: page.idle, default=None)
        if page is None or page.idle < LEFT:
            return False
        await self._leave(page)
        return True

    async def finish(self) -> None:
        """All pages answer what has come, and are left to other servers."""
        async def one(page: Page) -> None:
            await page.finish()
            with contextlib.suppress(Lost):
                await self._shared.log.release(page.name)
        await asyncio.gather(*map(one, list(self.pages.values())))

    # Their lines

    @contextlib.contextmanager
    def following(self, name: str, span: Span) -> Iterator[Feed]:
        """The feed of a page, at whichever server the page is."""
        feed = self._feed(name, span)
        try:
            yield feed
        finally:
            self._leave_feed(name)

    def _feed(self, name: str, span: Span) -> Feed:
        """The page's feed, for one more user: a follower, or the page where it is this server's."""
        feed = self._feeds.setdefault(name, Feed(name, self._shared.log, span))
        feed.users += 1
        feed.hear(span.next)
        self._watch()
        return feed

    def _leave_feed(self, name: str) -> None:
        self._feeds[name].users -= 1
        if not self._feeds[name].users:
            del self._feeds[name]
        self._watch()

    def _watch(self) -> None:
        self._shared.log.watch(self._feeds.keys() - self.pages.keys())

    def heard(self, name: str, number: int) -> None:
        if name in self._feeds:
            self._feeds[name].hear(number)

    def ended(self, name: str) -> None:
        if name in self._feeds:
            self._feeds[name].end()

    # Pages of others

    async def at_home(self, name: str, handed: bool, here: Callable[[bool], Awaitable[T]],
                      there: Callable[[str], Awaitable[T]]) -> T:
        """Does one thing at this server, or where that raises `Elsewhere` another by the server of that address. Looks again
        where it doesn't answer: it may have died, and then the page is free as soon as the database knows."""
        until = asyncio.get_running_loop().time() + PATIENCE
        tried = 0
        while True:
            try:
                return await here(handed or tried > 2)
            except Elsewhere as other:
                if handed:
                    raise web.HTTPServiceUnavailable(text="moved\n") from other
                with contextlib.suppress(ClientError, OSError, asyncio.TimeoutError):
                    return await there(other.address)
                if self._elsewhere.get(name) == other.address:
                    del self._elsewhere[name]
            except Lost as fault:
                if handed:
                    raise web.HTTPServiceUnavailable(text=f"{fault}\n") from fault
            if asyncio.get_running_loop().time() > until:
                raise web.HTTPServiceUnavailable(text="the page's server doesn't answer\n")
            tried += 1
            await asyncio.sleep(0.05)
