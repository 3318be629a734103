"""What answers lines, over a program or the library: whose turn it is, and what becomes of a call that doesn't end."""
from __future__ import annotations

import os
import threading
from abc import ABC, abstractmethod
from copy import copy
from collections.abc import Callable, Sequence
from typing import TypeVar

from .errors import Ended, Interrupted, TimedOut
from .members import Seconds

T = TypeVar("T")
MOST_SECONDS = 1_000_000.0  # which every system can wait


class World(ABC):
    """It answers lines one after the other; calls of several threads wait for one another.

    A call that doesn't end, since it is interrupted or its time runs out, ends the world: else a later line would be given its reply.
    """

    def __init__(self) -> None:
        self._turn = threading.Lock()
        self._thread: int | None = None  # whose call is under way
        self._process_id = os.getpid()
        self._failure: Ended | None = None  # why no line is answered any more

    def step(self, line: bytes, timeout: Seconds = None) -> bytes:
        """Returns the reply to a line, both without a newline."""
        return self.steps([line], timeout)[0]

    def steps(self, lines: Sequence[bytes], timeout: Seconds = None) -> list[bytes]:
        """Returns the replies to lines, which are all sent before the first reply is looked at. They may take so many seconds from the
        call's turn on. Raises ValueError where a line holds a newline, Ended, and TimedOut."""
        if b"\n" in b"".join(lines):
            raise ValueError("a line holds no newline: in JSON it is written \\n")
        seconds = bounded(timeout)
        return self._in_turn(lambda: self._exchange(lines, seconds))

    def close(self) -> int | None:
        """Ends the world, and returns its status. Closing it again does nothing."""
        self._may_call()
        with self._turn:
            self._failure = self._failure or Ended(0)
            return self._close()

    def _may_call(self) -> None:
        if self._thread == threading.get_ident():
            raise RuntimeError("a call of this core is under way in this thread: the handler of a signal can't ask it")
        if self._process_id != os.getpid():
            raise RuntimeError("this core is that of the process which was forked: begin another one")

    def _in_turn(self, exchange: Callable[[], T]) -> T:
        self._may_call()
        with self._turn:
            try:
                self._thread = threading.get_ident()
                return self._guarded(exchange)
            finally:
                self._thread = None

    def _guarded(self, exchange: Callable[[], T]) -> T:
        if self._failure is not None:
            raise copy(self._failure)
        try:
            return exchange()
        except BaseException as error:  # KeyboardInterrupt, and what a signal's handler raises, among them
            self._failure = error if isinstance(error, Ended) and not isinstance(error, TimedOut) else Interrupted()
            self._stop()
            raise

    @abstractmethod
    def _exchange(self, lines: Sequence[bytes], timeout: Seconds) -> list[bytes]:
        """Returns the replies to lines. Raises Ended, and TimedOut."""

    @abstractmethod
    def _stop(self) -> None:
        """Gives up what answers, in the middle of a call."""

    @abstractmethod
    def _close(self) -> int | None:
        """Ends what answers, where no call is under way, and returns its status. It may have ended before."""


def bounded(timeout: Seconds) -> Seconds:
    """Returns the time that is waited. Raises ValueError where it is no number."""
    if timeout is None:
        return None
    if timeout != timeout:
        raise ValueError("a timeout is a number of seconds")
    return min(max(timeout, 0), MOST_SECONDS)
