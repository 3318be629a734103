"""A log is cut by an `open` of the committed page, from which on it is run.

Nothing is pending then, and undoing ends there, as do the numbers of committed changes: whoever follows is sent the
`open`, and lines that stand on a list from before are answered `cut`.
"""
from __future__ import annotations

import asyncio
import json

from asks import Limits
from log import Lost
from programs import Crowded, Ended
from seating import Seating
from seats import SITES, VIEW, Line
from world import World

AGAIN = 60.0  # seconds until a cut that wasn't done is tried again


class Cutting:
    def __init__(self, world: World, seating: Seating, limits: Limits) -> None:
        self._world, self._seating, self._limits = world, seating, limits
        self._after = 0.0

    @property
    def full(self) -> bool:
        return self._world.load >= self._limits.most_bytes

    async def cut_in_time(self) -> None:
        """A long log at a quiet moment, and at once a very long one, or one that is hard to run."""
        world, now = self._world, asyncio.get_running_loop().time()
        if now < self._after:
            return
        quiet = now - world.newest
        # Somebody who has something unsent and thinks is waited for, but not for ever.
        patience = self._limits.absent if any(seat.pending for seat in world.seats.seats) else self._limits.quiet
        is_hard = world.seconds >= self._limits.most_seconds or world.growth >= self._limits.most_growth
        if self.full or is_hard or (world.load >= self._limits.cut_bytes and quiet >= patience):
            await self.cut()

    async def cut(self) -> None:
        """What is pending is sent before; or dropped, where that takes too long."""
        world = self._world
        dropped = set()
        for site, seat in enumerate(world.seats.seats):
            if seat.pending:
                try:
                    await self._seating.settle(site)
                    await world.keep()
                except Ended:
                    dropped.add(site)
                    await world.renew()
        await self._cut(dropped)

    async def _cut(self, dropped: set[int]) -> None:
        world = self._world
        replies = await world.read(
            *({"do": "caret" if site in dropped else "send", "site": site} for site in range(VIEW)),
            *({"do": "caret", "site": site} for site in range(VIEW)),
            *({"do": what, "at": 0, "site": VIEW} for what in ("html", "at")))
        sends, carets, (page, root) = replies[:VIEW], replies[VIEW:2 * VIEW], replies[2 * VIEW:]
        if any(reply.startswith("ok") for site, reply in enumerate(sends) if site not in dropped):
            raise Lost(f"{world.name}: a site has something pending that wasn't counted")
        line: Line = {"do": "open", "page": json.loads(page[3:]), "sites": SITES, "log": world.seats.told()}
        try:
            begun = await world.begin(line)
        except (Crowded, Ended):
            begun = False
        if not begun:
            # The page has grown over what `open` takes, or a new program over its memory.
            self._after = asyncio.get_running_loop().time() + AGAIN
            return
        [now] = await world.read({"do": "at", "at": 0, "site": VIEW})
        if now == root:
            # The page reads back as long as it was, so a caret is where it was.
            for site, seat in enumerate(world.seats.seats):
                anchor, focus = map(int, carets[site].split(" ")[1:])
                if seat.holder and (anchor, focus) != (0, 0):
                    await world.do({"do": "select", "anchor": anchor, "focus": focus, "site": site})
        await world.keep(first=world.next)
