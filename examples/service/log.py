"""What a log of lines is to this service, and how many lines come to be written by one commit.

A page's log is a list of lines with the numbers 0, 1, 2 and so on. Its newest `open` is where a program begins that is
to have the page; lines before it are history. Appending is **comparing and setting**: lines are appended at the number
that their writer takes to be the next one, or not at all. A writer that has run all lines before that number, and no
others, is so the only one that can append; two writers can't both.
"""
from __future__ import annotations

import asyncio
import contextlib
from collections.abc import Awaitable, Callable, Iterable, Sequence
from dataclasses import dataclass
from typing import Protocol


SOME = 1000  # lines that one reading gives
MUCH = 4 << 20  # and bytes, but that its last line may be longer


class Lost(Exception):
    """Lines weren't appended, or nobody knows whether they were. Their writer is to forget what it ran, and to read the
    log again: who was answered nothing sends its line again, and the log tells whether it is there."""


class Elsewhere(Exception):
    """The page is another server's, at this address."""

    def __init__(self, address: str) -> None:
        super().__init__(address)
        self.address = address


class Gone(Exception):
    """The page was deleted."""


@dataclass(frozen=True)
class Span:
    """A page's log: the number of its newest `open`, and the number that its next line gets."""
    first: int
    next: int


@dataclass(frozen=True)
class Batch:
    """Lines to append to one page's log at this number; `first` is that of the newest `open`, those among them too."""
    page: str
    number: int
    lines: Sequence[str]
    first: int


Notice = Callable[[str, int], None]


class Log(Protocol):
    """An engine. Every call may raise `Lost`."""

    async def open(self) -> None: ...

    def sure(self) -> bool:
        """Whether what this server has taken is surely still its own."""

    async def create(self, page: str, line: str) -> bool:
        """A new page whose first line is this `open`; False where there is one of that name."""

    async def delete(self, page: str) -> None:
        """Deletes a page of which this server is the writer."""

    async def names(self, after: str, most: int) -> list[str]:
        """So many pages, in the order of their names, from the first one after this name on."""

    async def span(self, page: str) -> Span | None:
        """None where there is no such page."""

    async def take(self, page: str, here: bool) -> Span | None:
        """Makes this server the page's one writer; None where there is no such page. Raises `Elsewhere` where another
        server is, or ought to be; `here` leaves the latter out."""

    async def release(self, page: str) -> None:
        """Another server may be the page's writer."""

    async def append(self, batch: Batch) -> None:
        """Returns once the lines are kept as surely as the engine keeps anything."""

    async def read(self, page: str, number: int) -> list[tuple[int, str]]:
        """Some lines from this number on, with their numbers. Where the number is of lines that were deleted, those from
        the newest `open` on; empty where there are no more lines."""

    def watch(self, pages: set[str]) -> None:
        """Lines that other servers append to these pages are to be told of."""

    async def close(self) -> None: ...


def some(rows: Iterable[tuple[int, str]]) -> list[tuple[int, str]]:
    """As many of these lines as one reading gives."""
    taken: list[tuple[int, str]] = []
    size = 0
    for number, line in rows:
        taken.append((number, line))
        size += len(line)
        if len(taken) == SOME or size >= MUCH:
            break
    return taken


class Commits:
    """Gathers the batches that come while one commit is on its way, and commits them as one: the busier the server, the
    more lines share the disk's wait. At most one batch of a page is here at a time."""

    def __init__(self, commit: Callable[[list[Batch]], Awaitable[set[str]]]) -> None:
        self._commit = commit
        self._waiting: list[tuple[Batch, asyncio.Future[None]]] = []
        self._wake = asyncio.Event()
        self._task = asyncio.create_task(self._work())

    async def append(self, batch: Batch) -> None:
        done = asyncio.get_running_loop().create_future()
        self._waiting.append((batch, done))
        self._wake.set()
        await done

    async def _work(self) -> None:
        while True:
            await self._wake.wait()
            self._wake.clear()
            taken, self._waiting = self._waiting, []
            kept: set[str] = set()
            try:
                kept = await self._commit([batch for batch, _ in taken])
            except Lost:
                pass
            except Exception as fault:
                # Nobody is to wait for ever because of a fault of ours.
                asyncio.get_running_loop().call_exception_handler({"message": "a commit failed", "exception": fault})
            for batch, done in taken:
                if done.cancelled():
                    continue
                if batch.page in kept:
                    done.set_result(None)
                else:
                    done.set_exception(Lost(batch.page))

    async def close(self) -> None:
        self._task.cancel()
        with contextlib.suppress(asyncio.CancelledError):
            await self._task
        for _, done in self._waiting:
            done.cancel()
