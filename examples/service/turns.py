"""A turn: lines and reads of several people that are run together, appended by one commit, and only then answered."""
from __future__ import annotations

import asyncio
from dataclasses import dataclass

from asks import Ask, Change, Request
from costs import Costs
from cutting import Cutting
from programs import TURN, Late
from seating import Seating
from seats import VIEW, Line, spelled
from world import Entry, World

Queued = tuple[Request, "asyncio.Future[Line]"]


@dataclass(frozen=True)
class Part:
    """A request of a turn, with what is known of it before, or else where its line stands among those that are run."""
    request: Ask | Change
    answer: asyncio.Future[Line]
    place: int
    known: Line | None = None


class Slow(Exception):
    """The program ended on a line that takes too long."""

    def __init__(self, request: Ask | Change, why: str) -> None:
        super().__init__(why)
        self.request = request


class Turn:
    def __init__(self, world: World, seating: Seating, cutting: Cutting, costs: Costs) -> None:
        self._world, self._seating, self._cutting, self._costs = world, seating, cutting, costs
        self._parts: list[Part] = []
        self._entries: list[Entry] = []
        self._senders: list[Ask | Change] = []  # of each entry
        self._highest: dict[str, int] = {}  # the number of each writer's last line in this turn

    def takes(self, queued: Queued) -> bool:
        """Makes it part of this turn, unless what comes of the turn decides of it."""
        request, answer = queued
        place = len(self._entries)
        if isinstance(request, Ask):
            site = self._world.seats.writer(request.holder).site
            self._put(request, Entry(spelled({**request.line, "site": VIEW if site is None else site})))
            self._parts.append(Part(request, answer, place))
            return True
        assert isinstance(request, Change)
        done = self._world.seats.writer(request.holder).done
        if done < request.n <= self._highest.get(request.holder, done):
            return False
        known = self._known(request)
        if known is None:
            self._highest[request.holder] = request.n
            self._run(request)
        self._parts.append(Part(request, answer, place, known))
        return True

    def _run(self, change: Change) -> None:
        """Whatever the line says, it speaks for its writer's site."""
        site = self._world.seats.writer(change.holder).site
        assert site is not None
        self._seating.use(site)
        line = {**change.line, "site": site, "log": {"n": change.n}}
        self._put(change, Entry.of(line))
        if line["do"] == "send":
            # Where nothing is sent nothing is served, so both can be run at once.
            self._put(change, Entry.of({**line, "do": "serve"}))

    def _put(self, sender: Ask | Change, entry: Entry) -> None:
        self._senders.append(sender)
        self._entries.append(entry)

    def _known(self, change: Change) -> Line | None:
        """The answer to a line that isn't to be run."""
        writer = self._world.seats.writer(change.holder)
        if change.n in writer.answers:
            return writer.answers[change.n]
        if writer.site is None:
            return {"n": change.n, "error": "seat", "done": writer.done}
        since = self._world.seats.seats[writer.site].since
        if change.since != since:
            return {"n": change.n, "error": "cut", "since": since, "done": writer.done}
        if change.n <= writer.done:
            return {"n": change.n, "error": "passed", "done": writer.done}
        return {"n": change.n, "error": "full"} if self._cutting.full else None

    async def run(self) -> list[tuple[asyncio.Future[Line], Line]]:
        """What each is to be answered. All that was accepted is in the log then. Raises `Slow` where one line took too long, and
        `Ended` where the program ended otherwise. Each pays for its lines."""
        number = self._world.next
        try:
            replies = await self._world.run(self._entries, TURN)
        except Late as late:
            if late.by_line or self._senders[0] is self._senders[-1]:
                raise Slow(self._senders[len(self._world.spent) - 1], str(late)) from late
            raise
        finally:
            for sender, seconds in zip(self._senders, self._world.spent):
                self._costs.pay(sender.payer, seconds)
        await self._world.keep()
        return [(part.answer, self._told(part, number, replies)) for part in self._parts]

    def _told(self, part: Part, number: int, replies: list[str]) -> Line:
        if part.known is not None:
            return part.known
        request = part.request
        writer = self._world.seats.writer(request.holder)
        if isinstance(request, Change):
            return writer.answers.get(request.n) or {"n": request.n, "reply": replies[part.place]}
        if writer.site is not None:
            return {"reply": replies[part.place]}
        # The committed page as it was before the log's line of this number.
        kept = sum(entry.line is not None and reply.startswith("ok")
                   for entry, reply in zip(self._entries[:part.place], replies))
        return {"reply": replies[part.place], "next": number + kept}
