"""The core as a program of its own: lines go through one pipe, and their replies come through another, in their order."""
from __future__ import annotations

import math
import os
import select
import subprocess
import sys
import time
import weakref
from pathlib import Path
from collections.abc import Sequence
from typing import Union

from .errors import Ended, TimedOut
from .members import Seconds
from .world import World, bounded

StrPath = Union[str, "os.PathLike[str]"]
#: A run of the program reads at most so many bytes of lines, and ends after them.
MOST_BYTES = 64 << 20
PIECE = 1 << 16  # what is read at once
PATIENCE = 10  # seconds that it is given to end, once it has no more lines to read
_HERE = Path(__file__).resolve()


def find() -> Path:
    """Returns the program that VEMODEL names; else the one of this package; else bin/vemodel of the repository round this file.

    Raises FileNotFoundError where there is none of them.
    """
    named = os.environ.get("VEMODEL")
    if named:
        return Path(named)
    for place in (_HERE.parent / "native" / "vemodel", _HERE.parents[3] / "bin" / "vemodel"):
        if place.is_file():
            return place
    raise FileNotFoundError("no vemodel: give the program's path, or set VEMODEL to it")


def limit_memory(process_id: int, memory: int) -> None:
    """Lets a process take so many bytes of addresses at most. Raises OSError where the system can't do that."""
    if sys.platform != "linux":
        raise OSError("only Linux can limit another process's memory")
    import resource

    resource.prlimit(process_id, resource.RLIMIT_AS, (memory, memory))


class Program(World):
    """A running program."""

    def __init__(self, path: StrPath | None = None, *, memory: int | None = None, under: Sequence[str] = ()) -> None:
        """Starts the program at `path`, or the one that `find` gives; with `under` by this command, as by `strace`. With `memory` it may
        take so many bytes of addresses at most. Raises OSError where it can't be started."""
        super().__init__()
        command = [*under, os.fspath(path or find()), "run"]
        # In a session of its own: a terminal's Ctrl-C is for whoever asks the program, and doesn't end it between two calls.
        self.process = subprocess.Popen(command, stdin=subprocess.PIPE, stdout=subprocess.PIPE, bufsize=0, start_new_session=True)
        self._finalize = weakref.finalize(self, _end, self.process, os.getpid())
        assert self.process.stdin and self.process.stdout
        self._lines, self._replies = self.process.stdin.fileno(), self.process.stdout.fileno()
        os.set_blocking(self._lines, False)
        if memory is not None:
            limit_memory(self.process.pid, memory)

    def ask(self, lines: bytes, timeout: Seconds = None) -> bytes:
        """Returns the replies to whole lines, all with their newlines. Raises as `steps` does."""
        seconds = bounded(timeout)
        return self._in_turn(lambda: self._replies_to(lines, seconds))

    def _exchange(self, lines: Sequence[bytes], timeout: Seconds) -> list[bytes]:
        return self._replies_to(b"\n".join([*lines, b""]), timeout).split(b"\n")[:-1]

    def _replies_to(self, lines: bytes, timeout: Seconds) -> bytes:
        """Writes lines while it reads their replies, since either pipe may fill."""
        end = math.inf if timeout is None else time.monotonic() + timeout
        rest = self._written(memoryview(lines))
        missing, pieces = lines.count(b"\n"), list[bytes]()
        while missing > 0:
            # Reading waits by itself, where it may wait as long as it likes and nothing is to be written meanwhile.
            if (not rest and end == math.inf) or self._is_readable(bool(rest), end):
                pieces.append(self._read())
                missing -= pieces[-1].count(b"\n")
            rest = self._written(rest)
        return b"".join(pieces)

    def _written(self, rest: memoryview) -> memoryview:
        """Writes as much as the pipe takes now, and returns the rest. Where the program has ended, its replies tell."""
        try:
            return rest[os.write(self._lines, rest) :] if rest else rest
        except BlockingIOError:
            return rest
        except BrokenPipeError:
            return rest[:0]

    def _read(self) -> bytes:
        """Waits until there is something of replies, and returns it."""
        piece = os.read(self._replies, PIECE)
        if not piece:
            raise Ended(self.process.wait())
        return piece

    def _is_readable(self, is_writing: bool, end: float) -> bool:
        """Waits until there is something to read, or room for what is to be written, and returns whether it is the first."""
        poll = select.poll()
        poll.register(self._replies, select.POLLIN)
        if is_writing:
            poll.register(self._lines, select.POLLOUT)
        ready = dict(poll.poll(None if end == math.inf else max(end - time.monotonic(), 0) * 1000))
        if not ready:
            raise TimedOut
        return self._replies in ready

    def _stop(self) -> None:
        self._finalize()

    def _close(self) -> int:
        assert self.process.stdin
        self.process.stdin.close()
        try:
            self.process.wait(PATIENCE)
        except subprocess.TimeoutExpired:
            pass
        self._finalize()
        return self.process.wait()


def _end(process: subprocess.Popen[bytes], owner: int) -> None:
    """Ends a program that nobody asks any more. It isn't that of a process which was forked from its owner."""
    assert process.stdin and process.stdout
    process.stdin.close()
    process.stdout.close()
    if os.getpid() == owner:
        process.kill()
        process.wait()
