"""The program for asyncio: raw lines in, raw replies out, while other tasks go on."""
from __future__ import annotations

import asyncio
import os
import weakref
from contextlib import suppress
from copy import copy
from collections.abc import Callable, Sequence

from .errors import Ended, Interrupted, TimedOut
from .members import Seconds
from .program import MOST_BYTES, StrPath, find, limit_memory


class AsyncProgram:
    """A running program. Runs of several tasks come one after the other.

    A run that is cancelled, or whose time runs out, ends the program, and later ones raise Interrupted.
    """

    def __init__(self, process: asyncio.subprocess.Process) -> None:
        assert process.stdin and process.stdout
        self._process = process
        self._finalize = weakref.finalize(self, _end, process, os.getpid())
        self._lines, self._replies = process.stdin, process.stdout
        self._turn = asyncio.Lock()
        self._written = 0
        self._failure: Ended | None = None

    @classmethod
    async def start(cls, path: StrPath | None = None, *, memory: int | None = None) -> AsyncProgram:
        """Starts the program at `path`, or the one that `find` gives. With `memory` it may take so many bytes of addresses at most. Raises
        OSError where it can't be started."""
        pipe = asyncio.subprocess.PIPE
        # The limit is of one reply, and the longest is a page, escaped. A session of its own is for the reason that Program has one.
        process = await asyncio.create_subprocess_exec(
            path or find(), "run", stdin=pipe, stdout=pipe, limit=MOST_BYTES, start_new_session=True
        )
        if memory is not None:
            limit_memory(process.pid, memory)
        return cls(process)

    @property
    def room(self) -> int:
        """How many bytes of lines it would still read."""
        return MOST_BYTES - self._written

    @property
    def process_id(self) -> int:
        return self._process.pid

    async def run(self, lines: Sequence[str], timeout: Seconds = None, note: Callable[[str], object] | None = None) -> list[str]:
        """Returns the raw replies to raw lines. They may take so many seconds from the run's turn on. `note` is called with each one as it
        comes. Raises Ended, TimedOut, and ValueError where a line holds a newline."""
        if any("\n" in line for line in lines):
            raise ValueError("a line holds no newline: in JSON it is written \\n")
        data = "".join(line + "\n" for line in lines).encode()
        async with self._turn:
            if self._failure is not None:
                raise copy(self._failure)
            self._written += len(data)
            try:
                return await asyncio.wait_for(self._exchange(data, len(lines), note), timeout)
            except asyncio.TimeoutError:
                self._give_up(Interrupted())
                raise TimedOut from None
            except BaseException as error:  # it is cancelled, among others
                self._give_up(error if isinstance(error, Ended) else Interrupted())
                raise

    async def close(self) -> int:
        """Ends the program, which has nothing to lose, and returns its status. Closing it again does nothing."""
        self._give_up(Ended(0))
        return await self._process.wait()

    def _give_up(self, failure: Ended) -> None:
        # asyncio loses the status of a process that is killed twice.
        self._finalize()
        self._failure = self._failure or failure
        if not self._lines.is_closing():
            self._lines.transport.abort()  # with what isn't written yet

    async def _exchange(self, data: bytes, count: int, note: Callable[[str], object] | None) -> list[str]:
        """Writes lines while it reads their replies, since either pipe may fill."""
        try:
            _, replies = await asyncio.gather(self._write(data), self._read(count, note))
        except ConnectionError:
            raise Ended(await self._process.wait()) from None
        return replies

    async def _write(self, data: bytes) -> None:
        self._lines.write(data)
        await self._lines.drain()

    async def _read(self, count: int, note: Callable[[str], object] | None) -> list[str]:
        replies = []
        for _ in range(count):
            reply = await self._replies.readline()
            if not reply.endswith(b"\n"):
                raise ConnectionResetError
            replies.append(reply[:-1].decode())
            if note is not None:
                note(replies[-1])
        return replies


def _end(process: asyncio.subprocess.Process, owner: int) -> None:
    """Ends a program that nobody asks any more. It isn't that of a process which was forked from its owner."""
    if process.returncode is None and os.getpid() == owner:
        with suppress(ProcessLookupError):
            process.kill()
