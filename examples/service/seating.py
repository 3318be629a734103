"""Seats are lent: for a turn, and for as long after it as nobody else needs them.

Who writes has a seat, which is a site of the program. There are seven, and any number of people: where no seat is free,
the one whose holder was idle for longest is taken back. What its holder hadn't sent is sent then, so it isn't lost, and
the next one sits down on the committed page.
"""
from __future__ import annotations

import asyncio
from collections.abc import Callable

from asks import Limits
from seats import VIEW, Line
from world import Entry, World

MANY = 500  # lines that a site takes by one run of the program
PATIENCE = 3.0  # seconds that somebody waits for a seat whose holder is idle; then the one that was lent first is taken


class Seating:
    def __init__(self, world: World, limits: Limits, taken: Callable[[str, int], None]) -> None:
        """`taken` is told of a holder whose seat was taken back, and the number of the last line of it that was done."""
        self._world, self._limits, self._taken = world, limits, taken
        self._present: dict[str, int] = {}  # connections of each writer
        now = asyncio.get_running_loop().time()
        self._left = now  # when the last connection ended
        self._used = [now] * VIEW  # when each seat was last used, or its holder's last connection ended

    # Who is here

    def came(self, holder: str) -> None:
        self._present[holder] = self._present.get(holder, 0) + 1

    def left(self, holder: str) -> bool:
        """Whether that was the last connection of this writer."""
        self._present[holder] -= 1
        if self._present[holder]:
            return False
        del self._present[holder]
        self._left = asyncio.get_running_loop().time()
        site = self._world.seats.writer(holder).site
        if site is not None:
            self.use(site)
        return True

    @property
    def last(self) -> float | None:
        """When the last one left; None where somebody is here."""
        return None if self._present else self._left

    def use(self, site: int) -> None:
        self._used[site] = asyncio.get_running_loop().time()

    # Seats

    async def lend(self, holder: str, waited: float) -> Line | None:
        """The seat of this writer; None where it has to wait for one."""
        world = self._world
        site = world.seats.writer(holder).site
        if site is None:
            site = self._choice(waited)
            if site is None:
                return None
            if world.seats.seats[site].holder:
                await self._take_back(site)
            await world.do({"do": "select", "anchor": 0, "focus": 0, "site": site, "log": {"join": holder}})
            await self.settle(site)
            await world.keep()
        self.use(site)
        return {"site": site, "since": world.seats.seats[site].since, "done": world.seats.writer(holder).done, "next": world.next}

    def _choice(self, waited: float) -> int | None:
        """A seat that nobody has, with the least to take; else the one that was idle for longest, if it is idle; else, for
        who has waited long enough, the one that was lent first."""
        seats = self._world.seats.seats
        free = [site for site, seat in enumerate(seats) if not seat.holder]
        if free:
            return min(free, key=lambda site: seats[site].queued)
        idlest = min(range(VIEW), key=lambda site: self._used[site])
        if asyncio.get_running_loop().time() - self._used[idlest] >= self._limits.turn:
            return idlest
        return min(range(VIEW), key=lambda site: seats[site].since) if waited >= PATIENCE else None

    async def _take_back(self, site: int) -> None:
        holder = self._world.seats.seats[site].holder
        await self.free(site)
        self._taken(holder, self._world.seats.writer(holder).done)

    async def rise(self, holder: str) -> None:
        site = self._world.seats.writer(holder).site
        if site is not None:
            await self.free(site)

    async def free(self, site: int) -> None:
        """Nobody has this seat any more. What its holder made is committed, rather than lost."""
        await self.settle(site)
        await self._world.do({"do": "select", "anchor": 0, "focus": 0, "site": site, "log": {"leave": True}})
        await self._world.keep()

    async def settle(self, site: int) -> None:
        """Takes all that there is for the site, and sends what it made."""
        world = self._world
        take = Entry.of({"do": "take", "site": site})
        queued = world.seats.seats[site].queued
        while True:
            for begin in range(0, queued, MANY):
                await world.run([take] * min(MANY, queued - begin))
                if queued > MANY:
                    await world.keep()
            if not await world.do({"do": "send", "site": site}):
                return
            await world.do({"do": "serve", "site": site})
            queued = 1

    async def free_absent(self) -> None:
        now = asyncio.get_running_loop().time()
        for site, seat in enumerate(self._world.seats.seats):
            if seat.holder and seat.holder not in self._present and now - self._used[site] >= self._limits.absent:
                await self.free(site)
