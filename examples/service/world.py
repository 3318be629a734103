"""A page's log, and a program that has run it.

What the program accepts is appended to the log before anybody is told of it. So

- a server that dies before the append has answered nobody, and the line is as if it had never been sent;
- one that dies after it, and before the answer, leaves the line in the log: its client asks again under the same
  number, and whoever has the page then answers what the line was answered, and doesn't do it again;
- where nobody knows whether an append came to be (`Lost`), the program that ran the lines is thrown away, and the log
  is read again.
"""
from __future__ import annotations

import asyncio
import json
from collections.abc import Sequence
from dataclasses import dataclass
from itertools import islice

from asks import Limits
from costs import Costs
from feed import Feed
from log import Batch, Log, Lost, Span
from programs import STEP, Core, Ended, Programs
from seats import VIEW, Line, Seats, spelled

SPARE = 1 << 20  # bytes that the program is to have room for beside what it is asked, for the service's own lines
# It isn't in the log: nothing that others see goes by what the view has taken.
TAKE = spelled({"do": "take", "site": VIEW})


class Strange(Exception):
    """The program doesn't accept a line of the log, which another one has: the versions differ, or the log was changed."""


@dataclass(frozen=True)
class Entry:
    """A line to run, and to keep where it is accepted; or to read by, where there is no `line`."""
    text: str
    line: Line | None = None

    @classmethod
    def of(cls, line: Line) -> Entry:
        return cls(spelled(line), line)

    @property
    def texts(self) -> list[str]:
        """What the program is given: the view takes whatever is served."""
        served = self.line is not None and self.line["do"] == "serve"
        return [self.text, TAKE] if served else [self.text]


@dataclass
class Shared:
    """What the pages of a server share."""
    log: Log
    programs: Programs
    limits: Limits
    costs: Costs
    lines: int = 0  # that were appended
    bytes: int = 0  # of these


class World:
    def __init__(self, name: str, shared: Shared, feed: Feed) -> None:
        self.name, self.feed = name, feed
        self._log, self._programs, self._shared = shared.log, shared.programs, shared
        self.seats = Seats()
        self.first = self.next = 0
        self.bytes = 0  # of the lines after the newest `open`
        self.seconds = 0.0  # of a processor, for these
        self._least = 0  # bytes of the program when it had opened the page
        self.spent: list[float] = []  # for each entry of the last run, with that on which it ended
        self.newest = asyncio.get_running_loop().time()  # when the newest line came
        # Lines that the program has accepted and the log hasn't, with their replies.
        self._fresh: list[tuple[Entry, str, float]] = []
        self._core: Core

    async def open(self, span: Span) -> None:
        self.first, self.next = span.first, span.next
        try:
            await self._replay()
        except Ended as fault:
            raise Lost(f"{self.name}: {fault}, running its log") from fault

    async def close(self) -> None:
        await self._core.close()

    async def renew(self) -> None:
        """A program that has run the log and nothing else, in the place of one that ended or can read no more."""
        self._fresh.clear()
        await self._core.close()
        try:
            await self._replay()
        except Ended as fault:
            raise Lost(f"{self.name}: {fault}, running its log") from fault

    # The program

    async def _replay(self) -> None:
        """Runs all lines from the newest `open` on."""
        self.seats = Seats()
        self._core = await self._programs.start()
        try:
            await self._read()
        except BaseException:
            await self._core.close()
            raise

    async def _read(self) -> None:
        number = self.first
        while number < self.next:
            rows = (await self._log.read(self.name, number))[:1 if number == self.first else None]
            if [n for n, _ in rows] != list(range(number, number + len(rows))) or not rows:
                raise Lost(f"{self.name}: the log has no line {number}")
            entries = [Entry(text, json.loads(text)) for _, text in rows[:self.next - number]]
            replies = first_ones(entries, await self._core.run_log(texts_of(entries)))
            for entry, reply, seconds in zip(entries, replies, sums(entries, self._core.spent)):
                if not reply.startswith("ok"):
                    raise Strange(f"{self.name}: line {number} of its log is answered {reply}")
                self._note(number, entry, reply, seconds)
                number += 1

    async def run(self, entries: Sequence[Entry], times: float = STEP) -> list[str]:
        """The replies to these lines, which may take so many times of a line together. Of those that have something to keep,
        what was accepted is kept by `keep`."""
        texts = texts_of(entries)
        if self._core.room < sum(len(text.encode()) + 1 for text in texts) + SPARE:
            if self._fresh:
                await self.keep()
            await self.renew()
        try:
            replies = first_ones(entries, await self._core.run(texts, times))
        finally:
            self.spent = sums(entries, self._core.spent)
        self._fresh.extend((entry, reply, seconds) for entry, reply, seconds in zip(entries, replies, self.spent)
                           if entry.line is not None and reply.startswith("ok"))
        return replies

    async def do(self, line: Line) -> bool:
        """A line of the service's own; whether it was accepted."""
        [reply] = await self.run([Entry.of(line)])
        return reply.startswith("ok")

    async def read(self, *lines: Line) -> list[str]:
        return await self.run([Entry(spelled(line)) for line in lines])

    # The log

    async def keep(self, first: int | None = None) -> None:
        """Appends what the program has accepted. Until this returns nobody is told of it."""
        if not self._fresh:
            return
        number = self.next
        texts = [entry.text for entry, _, _ in self._fresh]
        first = self.first if first is None else first
        await self._log.append(Batch(self.name, number, texts, first))
        for place, kept in enumerate(self._fresh):
            self._note(number + place, *kept)
        self._fresh.clear()
        self.first, self.next = first, number + len(texts)
        self.newest = asyncio.get_running_loop().time()
        self._shared.lines += len(texts)
        self._shared.bytes += sum(map(len, texts))
        self.feed.put(number, texts)

    def _note(self, number: int, entry: Entry, reply: str, seconds: float) -> None:
        assert entry.line is not None
        self.seats.note(number, entry.line, reply)
        if entry.line["do"] == "open":
            self.bytes, self.seconds, self._least = 0, 0.0, self._core.memory
        else:
            self.bytes += len(entry.text.encode()) + 1
            self.seconds += seconds

    @property
    def growth(self) -> int:
        """The bytes that its program took since it opened the page."""
        return self._core.memory - self._least

    @property
    def load(self) -> int:
        """The bytes of the log after its newest `open`, once what is pending is committed."""
        return self.bytes + self.seats.debt()

    async def begin(self, page: Line) -> bool:
        """Begins the log anew by this `open`, in a new program; False where the program refuses it. The old one stays until
        the new one has opened the page."""
        core = await self._programs.start()
        try:
            reply = await core.open(spelled(page))
            refused = not reply.startswith("ok")
        except BaseException:
            await core.close()
            raise
        if refused:
            await core.close()
            return False
        await self._core.close()
        self._core = core
        self._fresh.append((Entry.of(page), reply, 0))
        return True


def texts_of(entries: Sequence[Entry]) -> list[str]:
    return [text for entry in entries for text in entry.texts]


def first_ones(entries: Sequence[Entry], replies: Sequence[str]) -> list[str]:
    """Of the replies to their texts the first one for each."""
    all_of_them = iter(replies)
    return [[next(all_of_them) for _ in entry.texts][0] for entry in entries]


def sums(entries: Sequence[Entry], spent: Sequence[float]) -> list[float]:
    """What each took, of what its texts did, up to the one on which the program ended."""
    all_of_it = iter(spent)
    parts = (list(islice(all_of_it, len(entry.texts))) for entry in entries)
    return [sum(part) for part in parts if part]
