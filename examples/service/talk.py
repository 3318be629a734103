"""What one connection says at a page, and what it is told: answers, the page's lines, and who else is there."""
from __future__ import annotations

import asyncio
from collections.abc import Coroutine
from typing import Any

from access import Visitor
from asks import Ask, Change, Request, Rise, Sit
from page import Page
from presence import Guest
from seats import CHANGES, READS, UNANSWERED, Line
from wire import Bad, Wire, number_of, said

MOST_WAITING = 2 << 20  # bytes of one connection's messages that may wait for their answers
GATHER = 0.05  # seconds for which news of people are gathered


class Talk:
    """Lines may be sent ahead of their answers, which come in the order of lines. What is read is answered before the next
    message is looked at, as an answer may be as long as the page."""

    def __init__(self, page: Page, wire: Wire, guest: Guest, visitor: Visitor) -> None:
        self._page, self._wire, self._guest = page, wire, guest
        self._may_write, self._payer = visitor.writes(page.name), visitor.account or guest.holder
        self._asked: asyncio.Queue[tuple[Line, int, asyncio.Future[Line]]] = asyncio.Queue(UNANSWERED)
        self._answered = asyncio.Event()

    async def run(self, *others: Coroutine[Any, Any, None]) -> None:
        """Until the connection or the page ends."""
        await together(self._listen(), self._answer(), self._tell_news(), self._page_ended(), *others)

    async def _listen(self) -> None:
        while True:
            name: Line = {}  # what names the answer: a line's number, or whatever the client puts into `ask`
            try:
                text = await self._wire.hear()
                if text is None:
                    return
                message = said(text)
                name = {which: message[which] for which in ("n", "ask") if which in message}
                await self._take(message, name, len(text))
            except Bad as fault:
                await self._put(name, 0, told({"error": "bad", "why": str(fault)}))

    async def _take(self, message: Line, name: Line, size: int) -> None:
        if "here" in message:
            self._page.presence.move(self._guest, selection_of(message["here"]))
            return
        request = self._request(message, size)
        if not self._may_write and isinstance(request, (Sit, Change)):
            await self._put(name, 0, told({"error": "forbidden"}))
            return
        await self._put(name, size, self._page.put(request))
        if isinstance(request, Ask):
            await self._until_answered()

    def _request(self, message: Line, size: int) -> Request:
        holder = self._guest.holder
        if "sit" in message:
            return Sit(holder)
        if "rise" in message:
            return Rise(holder)
        line = message.get("line")
        do = line.get("do") if isinstance(line, dict) else None
        if not isinstance(line, dict) or not isinstance(do, str):
            raise Bad("no line")
        if do in READS:
            return Ask(holder, self._payer, line, size)
        if do not in CHANGES:
            raise Bad("no command of a client")
        return Change(holder, self._payer, number_of(message.get("n")), number_of(message.get("since")), line, size)

    async def _put(self, name: Line, size: int, answer: asyncio.Future[Line]) -> None:
        self._wire.inward += size
        await self._asked.put((name, size, answer))
        await self._until_answered(MOST_WAITING)

    async def _until_answered(self, but: int = 0) -> None:
        """Until no more than so many bytes of messages wait for their answers."""
        while self._wire.inward > but:
            self._answered.clear()
            await self._answered.wait()

    async def _answer(self) -> None:
        while True:
            name, size, answer = await self._asked.get()
            told = await answer
            await self._wire.tell({**name, **told})
            self._wire.inward -= size
            self._answered.set()
            if told.get("error") == "ended":
                return

    async def _page_ended(self) -> None:
        await self._page.over.wait()
        await self._until_answered()

    async def _tell_news(self) -> None:
        while True:
            await self._wire.tell(await self._guest.news())
            await asyncio.sleep(GATHER)


async def together(*parts: Coroutine[Any, Any, None]) -> None:
    """Until the first one ends; the others are ended then. Raises what one of them raised."""
    tasks = [asyncio.create_task(part) for part in parts]
    try:
        await asyncio.wait(tasks, return_when=asyncio.FIRST_COMPLETED)
    finally:
        for task in tasks:
            task.cancel()
        ended = await asyncio.gather(*tasks, return_exceptions=True)
    for fault in ended:
        if isinstance(fault, Exception):
            raise fault


def told(answer: Line) -> asyncio.Future[Line]:
    future: asyncio.Future[Line] = asyncio.get_running_loop().create_future()
    future.set_result(answer)
    return future


def selection_of(given: object) -> Line | None:
    """Where somebody is: two ends, and how many committed changes the list has that they count in."""
    if given is None:
        return None
    if not isinstance(given, dict):
        raise Bad("no selection")
    return {name: number_of(given.get(name)) for name in ("anchor", "focus", "entries")}
