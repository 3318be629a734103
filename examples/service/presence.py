"""Who is at a page: names, and where each has its selection. Nothing of it is kept, and whoever takes the page over hears
it anew."""
from __future__ import annotations

import asyncio

from seats import Line

MOST = 100  # people who see each other; others edit all the same


class Guest:
    """A connection of somebody, as the others see it, and what it is to be told of them. Of several news of one person the
    newest counts, so what waits here is bounded by the number of people."""

    def __init__(self, who: int, name: str, holder: str) -> None:
        self.who, self.holder = who, holder
        self.shown: Line = {"who": who, "name": name}
        self._news: dict[int, Line | None] = {}
        self._seat: Line = {}
        self._something = asyncio.Event()

    def hear(self, who: int, shown: Line | None) -> None:
        self._news[who] = shown
        self._something.set()

    def lose_seat(self, done: int) -> None:
        self._seat = {"site": None, "done": done}
        self._something.set()

    async def news(self) -> Line:
        """What it wasn't told yet; waits for it."""
        await self._something.wait()
        self._something.clear()
        news, self._news = self._news, {}
        seat, self._seat = self._seat, {}
        people = [shown for shown in news.values() if shown is not None]
        gone = [who for who, shown in news.items() if shown is None]
        return {**seat, **({"people": people} if people else {}), **({"gone": gone} if gone else {})}


class Presence:
    def __init__(self) -> None:
        self._guests: dict[int, Guest] = {}
        self._last = 0

    def come(self, name: str, holder: str) -> Guest:
        self._last += 1
        guest = Guest(self._last, name, holder)
        self._guests[guest.who] = guest
        seen = self._seen()
        for other in seen if guest in seen else ():
            if other is not guest:
                guest.hear(other.who, other.shown)
        self._show(guest, guest.shown)
        return guest

    def go(self, guest: Guest) -> None:
        self._show(guest, None)
        del self._guests[guest.who]

    def move(self, guest: Guest, selection: Line | None) -> None:
        """Where the guest's selection is, in its own words; or nowhere."""
        guest.shown = {"who": guest.who, "name": guest.shown["name"], **({"selection": selection} if selection else {})}
        self._show(guest, guest.shown)

    def seat_taken(self, holder: str, done: int) -> None:
        for guest in self._guests.values():
            if guest.holder == holder:
                guest.lose_seat(done)

    def _seen(self) -> list[Guest]:
        return [guest for _, guest in zip(range(MOST), self._guests.values())]

    def _show(self, guest: Guest, shown: Line | None) -> None:
        seen = self._seen()
        if guest in seen:
            for other in seen:
                if other is not guest:
                    other.hear(guest.who, shown)
