"""One page at the server that writes it: the requests that go through its program in turn."""
from __future__ import annotations

import asyncio
import contextlib
import json
import sys
from collections import deque
from collections.abc import Awaitable, Callable, Iterable
from typing import TypeVar

from asks import Ask, Change, Enter, Request, Rise, Show, Sit
from cutting import Cutting
from feed import Feed
from log import Lost, Span
from presence import Presence
from programs import Crowded, Ended, Late
from seating import Seating
from seats import VIEW, Line
from turns import Queued, Slow, Turn
from world import Shared, Strange, World

MOST_LINES = 200  # of one turn; fewer where they take long
LONG = 0.5  # seconds of a processor that a turn is to take at most
MOST_BYTES = 8 << 20  # of one turn, but that its first line may be longer
PAUSE = 1.0  # seconds between two looks at what has grown and who has gone
SOON = 0.1  # and where somebody waits for a seat
AGAIN = 60.0  # seconds until it looks again where the program ended over it

T = TypeVar("T")


class Page:
    def __init__(self, name: str, shared: Shared, feed: Feed, gone: Callable[[Page], None]) -> None:
        """`gone` is called once the page answers nothing more."""
        self.name, self.feed = name, feed
        self.presence = Presence()
        self._log, self._costs, self._gone = shared.log, shared.costs, gone
        self._world = World(name, shared, feed)
        self.seating = Seating(self._world, shared.limits, self.presence.seat_taken)
        self._cutting = Cutting(self._world, self.seating, shared.limits)
        self._resting = False
        self._used = asyncio.get_running_loop().time()
        self._tidied = 0.0
        self.over = asyncio.Event()  # nothing is answered any more, so who is here is to connect anew
        self._requests: deque[Queued] = deque()
        self._shown: asyncio.Future[Line] | None = None  # the answer to all who wait for the page, until it is read
        self._owing: list[Queued] = []  # of who takes more than a part of the program's time, until it may go on
        self._most = MOST_LINES  # of the next turn
        self._standing: deque[tuple[Queued, float]] = deque()  # who waits for a seat, and since when
        self._wake = asyncio.Event()

    async def open(self, span: Span) -> None:
        """Runs the log, and begins to answer."""
        await self._world.open(span)
        self._task = asyncio.create_task(self._work())

    # Asking

    def put(self, request: Request) -> asyncio.Future[Line]:
        """Its answer. Raises `Lost` where this server can't answer; whether the request was done is then to be asked of the
        next one."""
        answer: asyncio.Future[Line] = asyncio.get_running_loop().create_future()
        if self.over.is_set():
            fail(answer, self.name)
        elif isinstance(request, Show) and self._shown is not None:
            return self._shown
        else:
            self._shown = answer if isinstance(request, Show) else self._shown
            self._requests.append((request, answer))
            self._wake.set()
        return answer

    @property
    def waiting(self) -> int:
        return len(self._requests) + len(self._owing) + len(self._standing)

    @property
    def idle(self) -> float:
        """Seconds since somebody was here."""
        left = self.seating.last
        if left is None or self.waiting or not self._resting:
            return 0
        return asyncio.get_running_loop().time() - max(self._used, left)

    def give_up(self) -> None:
        """What wasn't answered is for the next one who runs the log."""
        self.over.set()
        self._task.cancel()

    async def close(self) -> None:
        self.give_up()
        await asyncio.wait((self._task,))

    @property
    def log_bytes(self) -> int:
        return self._world.bytes

    async def finish(self) -> None:
        """Answers what has come, and ends."""
        while self._requests and not self.over.is_set():
            await asyncio.sleep(0.01)
        await self.close()

    # Turns

    async def _work(self) -> None:
        taken: list[Queued] = []
        try:
            while True:
                await self._something()
                await self._tidy()
                taken = self._take()
                if taken:
                    self._used = asyncio.get_running_loop().time()
                    await self._turn(taken)
                taken = []
                await self._seat_them()
        except (Lost, Crowded):
            pass
        except Strange as fault:
            print(fault, file=sys.stderr, flush=True)
        finally:
            self.over.set()
            for _, answer in (*taken, *self._requests, *self._owing, *(queued for queued, _ in self._standing)):
                if not answer.done():
                    fail(answer, self.name)
            self._requests.clear()
            self._owing.clear()
            self._standing.clear()
            self._gone(self)
            await self._world.close()

    async def _something(self) -> None:
        """Waits until there is something to do."""
        if self._requests:
            return
        self._wake.clear()
        self._resting = True
        with contextlib.suppress(TimeoutError):
            async with asyncio.timeout(SOON if self._standing else PAUSE):
                await self._wake.wait()
        self._resting = False

    def _take(self) -> list[Queued]:
        """The requests of the next turn: lines, or one that needs several steps. Whoever owes waits, with all that it asks."""
        self._requests.extendleft(reversed(self._owing))
        self._owing.clear()
        taken: list[Queued] = []
        size = 0
        owing: set[str] = set()
        while self._requests and len(taken) < self._most and size < MOST_BYTES:
            request, _ = self._requests[0]
            if isinstance(request, (Ask, Change)) and self._costs.owes(request.payer):
                owing.add(request.holder)
            if request.holder in owing:
                self._owing.append(self._requests.popleft())
            elif isinstance(request, (Ask, Change)):
                size += request.size
                taken.append(self._requests.popleft())
            else:
                return taken or [self._requests.popleft()]
        return taken

    async def _turn(self, taken: list[Queued]) -> None:
        """Where the program ends, the log is run by another one. A line that took too long is its sender's fault, and the
        others are done in the next turn. Else each is done by itself; so the one on which it ends is its sender's alone."""
        try:
            await self._do(taken)
            self._most = max(1, self._most // 2) if sum(self._world.spent) > LONG else min(MOST_LINES, 2 * self._most)
        except Slow as fault:
            await self._world.renew()
            self._costs.pay(fault.request.payer, self._world.seconds)
            for queued in taken:
                if queued[0].holder == fault.request.holder:
                    self._ended(queued, str(fault))
            self._again(queued for queued in taken if not queued[1].done())
        except Late as fault:
            await self._world.renew()
            if isinstance(taken[0][0], (Ask, Change)):
                self._most = max(1, len(taken) // 4)
                self._again(taken)
            else:
                self._ended(taken[0], str(fault))
        except Ended as fault:
            await self._world.renew()
            await self._one_by_one(taken, str(fault))

    async def _one_by_one(self, taken: list[Queued], why: str) -> None:
        guilty: set[str] = set()
        for queued in taken:
            holder = queued[0].holder
            if holder not in guilty:
                try:
                    await self._do([queued])
                    continue
                except (Ended, Slow):
                    await self._world.renew()
            guilty.add(holder)
            self._ended(queued, why)

    def _again(self, taken: Iterable[Queued]) -> None:
        self._requests.extendleft(reversed(list(taken)))

    def _ended(self, queued: Queued, why: str) -> None:
        request, answer = queued
        number = {"n": request.n} if isinstance(request, Change) else {}
        self._answer(answer, {**number, "error": "ended", "why": why})

    async def _do(self, taken: list[Queued]) -> None:
        request, answer = taken[0]
        if isinstance(request, (Ask, Change)):
            await self._lines(taken)
        elif isinstance(request, Sit):
            self._standing.append((taken[0], asyncio.get_running_loop().time()))
        elif isinstance(request, Rise):
            await self._surely(lambda: self.seating.rise(request.holder))
            self._answer(answer, {"site": None, "done": self._world.seats.writer(request.holder).done})
        elif isinstance(request, Enter):
            self._answer(answer, self._entered(request.holder))
        elif isinstance(request, Show):
            self._shown = None  # who comes from here on may have been answered what isn't read here
            [reply] = await self._world.read({"do": "html", "site": VIEW})
            self._answer(answer, {"page": json.loads(reply[3:]).encode(), "next": self._world.next})

    async def _lines(self, taken: list[Queued]) -> None:
        turn = Turn(self._world, self.seating, self._cutting, self._costs)
        for place, queued in enumerate(taken):
            if not turn.takes(queued):
                self._requests.extendleft(reversed(taken[place:]))
                del taken[place:]
                break
        for answer, told in await turn.run():
            self._answer(answer, told)

    def _entered(self, holder: str) -> Line:
        world = self._world
        writer = world.seats.writer(holder)
        since = {} if writer.site is None else {"since": world.seats.seats[writer.site].since}
        return {"site": writer.site, **since, "done": writer.done, "open": world.first, "next": world.next}

    def _answer(self, answer: asyncio.Future[Line], told: Line) -> None:
        if not self._log.sure():
            raise Lost(self.name)
        if not answer.done():
            answer.set_result(told)

    # Beside the turns

    async def _seat_them(self) -> None:
        """Lends seats to those who wait for them, in their order."""
        while self._standing:
            (request, answer), since = self._standing[0]
            assert isinstance(request, Sit)
            if not answer.done():
                told = await self._seat(request.holder, asyncio.get_running_loop().time() - since)
                if told is None:
                    return
                self._answer(answer, told)
            self._standing.popleft()

    async def _seat(self, holder: str, waited: float) -> Line | None:
        if self._cutting.full:
            return {"error": "full"}
        try:
            return await self._surely(lambda: self.seating.lend(holder, waited))
        except Ended as fault:
            await self._world.renew()
            return {"error": "ended", "why": str(fault)}

    async def _tidy(self) -> None:
        """Frees the seats of who is away, and cuts the log where it is time."""
        now = asyncio.get_running_loop().time()
        if now < self._tidied + (0 if self._cutting.full else PAUSE):
            return
        self._tidied = now
        try:
            await self._surely(self.seating.free_absent)
            await self._cutting.cut_in_time()
        except Ended:
            await self._world.renew()
            self._tidied = now + AGAIN

    async def _surely(self, step: Callable[[], Awaitable[T]]) -> T:
        """A step for which somebody's changes are sent. Where that takes too long they are dropped, by a cut."""
        for again in True, False:
            try:
                return await step()
            except Ended as fault:
                await self._world.renew()
                if again and not isinstance(fault, Late):
                    continue
                await self._cutting.cut()
                break
        return await step()


def fail(answer: asyncio.Future[Line], name: str) -> None:
    answer.set_exception(Lost(name))
    answer.exception()  # whoever asked may be gone, and then nobody looks at it
