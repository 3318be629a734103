"""The programs that a server runs: at most so many, each with so much memory, and so much of a processor for what it is asked."""
from __future__ import annotations

import asyncio
import os
import sys
import time
from collections.abc import Awaitable, Callable, Sequence
from dataclasses import dataclass
from pathlib import Path

ROOT = Path(__file__).resolve().parents[2]
PROGRAM = ROOT / "bin" / "vemodel"
sys.path.append(str(ROOT / "clients" / "python"))

from vemodel import AsyncProgram, Ended, Interrupted  # noqa: E402

__all__ = ["PROGRAM", "ROOT", "Bounds", "Core", "Crowded", "Ended", "Late", "Programs"]

PATIENCE = 60.0  # seconds for lines, however busy the machine is
LOG = 300.0  # for those of a log
LOOK = 0.1  # seconds from one look at what a line takes to the next
MOST = 0.75  # of its memory that a program may have taken by its lines: so their log finds room when it is run again
TURN, STEP = 2, 5  # times of a line that all lines of a turn may take, and those of a step of the service's own


class Crowded(Exception):
    """As many programs run as may be."""


class Late(Interrupted):
    """A line took longer than a line may; or no line did, and all together took longer than they may."""

    def __init__(self, by_line: bool) -> None:
        super().__init__()
        self.by_line = by_line

    def __str__(self) -> str:
        return "this takes more of a processor's time than a line may"


@dataclass(frozen=True)
class Bounds:
    memory: int  # bytes of a program
    line: float  # seconds of a processor for a line


class Core:
    """One running program. Who starts it closes it."""

    def __init__(self, program: AsyncProgram, bounds: Bounds, closed: Callable[[], None]) -> None:
        self._program, self._bounds, self._closed = program, bounds, closed
        self._open = True
        # The clock of a process, as clock_getcpuclockid(3) names it.
        self._clock = ~program.process_id << 3 | 2
        self._noted = 0.0  # its time at the newest reply
        self._late: Late | None = None
        self.spent: list[float] = []  # seconds of each line of the last run, with that on which it ended

    @property
    def room(self) -> int:
        """How many bytes it would still read."""
        return self._program.room

    @property
    def memory(self) -> int:
        """The bytes of addresses that it has, of which it may have so many."""
        try:
            return int(Path(f"/proc/{self._program.process_id}/statm").read_text().split()[0]) * os.sysconf("SC_PAGE_SIZE")
        except OSError:
            return 0

    @property
    def _seconds(self) -> float:
        """Of a processor that it has taken."""
        try:
            return time.clock_gettime(self._clock)
        except OSError:  # it has ended
            return self._noted

    async def run(self, lines: Sequence[str], times: float = STEP) -> list[str]:
        """The replies to these lines, which may take so many times of a line together. Raises `Late`, and `Ended` where the
        program ends before it has given them all, for want of memory, or where a reply is too long."""
        self.spent.clear()
        began = self._noted = self._seconds
        try:
            async with asyncio.timeout(PATIENCE) as until:
                self._look(until, began + times * self._bounds.line, -1)
                replies = await self.run_log(lines)
        except TimeoutError:
            raise self._late or Late(by_line=False) from None
        finally:
            self._timer.cancel()
        self._check_memory()
        return replies

    def _look(self, until: asyncio.Timeout, end: float, answered: int) -> None:
        """Ends a run whose line took too long, if nothing came since the last look; or all whose lines did."""
        loop, now = asyncio.get_running_loop(), self._seconds
        by_line = answered == len(self.spent) and now - self._noted > self._bounds.line
        if by_line or now > end:
            self._late = Late(by_line)
            self.spent.append(now - self._noted)
            until.reschedule(loop.time())
        else:
            self._timer = loop.call_later(LOOK, self._look, until, end, len(self.spent))

    async def open(self, line: str) -> str:
        """The reply to the `open` of a page."""
        [reply] = await self.run_log([line], PATIENCE)
        self._check_memory()
        return reply

    def _check_memory(self) -> None:
        if self.memory > MOST * self._bounds.memory:
            raise Ended(6)

    async def run_log(self, lines: Sequence[str], patience: float = LOG) -> list[str]:
        """The replies to lines that were accepted before."""
        self.spent.clear()
        try:
            return await self._program.run(lines, patience, self._note)
        except ValueError as long:
            # A reply that is longer than all that the program reads.
            raise Interrupted from long

    def _note(self, reply: str) -> None:
        before, self._noted = self._noted, self._seconds
        self.spent.append(self._noted - before)

    async def close(self) -> None:
        """Ends the program, which has nothing to lose. Ending it again does nothing."""
        if self._open:
            self._open = False
            try:
                await self._program.close()
            finally:
                self._closed()


class Programs:
    def __init__(self, path: Path, most: int, bounds: Bounds, spare: Callable[[], Awaitable[bool]]) -> None:
        """`spare` ends one that nobody needs just now, or tells that there is none."""
        self._path, self._most, self._bounds, self._spare = path, most, bounds, spare
        self.running = 0

    async def start(self) -> Core:
        while self.running >= self._most:
            if not await self._spare():
                raise Crowded(f"{self._most} pages are open: try later")
        self.running += 1
        try:
            program = await AsyncProgram.start(self._path, memory=self._bounds.memory)
        except BaseException:
            self._ended()
            raise
        return Core(program, self._bounds, self._ended)

    def _ended(self) -> None:
        self.running -= 1
