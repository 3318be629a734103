"""The core in this process, over its C library."""
from __future__ import annotations

import ctypes
import os
import subprocess
import threading
import weakref
from functools import cache
from pathlib import Path
from queue import Empty, SimpleQueue
from collections.abc import Sequence
from typing import Any

from .errors import Ended, TimedOut
from .members import Seconds
from .program import StrPath
from .world import World

#: The statuses of vemodel.h.
DONE, MEMORY, NOT_OPEN = 0, 1, 2
_HERE = Path(__file__).resolve()


class _Handle(ctypes.Structure):
    _fields_ = [("at", ctypes.c_void_p), ("is_open", ctypes.c_bool)]


class _Stepped(ctypes.Structure):
    _fields_ = [("status", ctypes.c_uint32), ("length", ctypes.c_size_t)]


@cache
def _loaded(path: str) -> Any:
    """Returns the functions of the library at a path. Raises OSError where it can't be loaded, or is another."""
    functions = ctypes.CDLL(path)
    handle, count = ctypes.POINTER(_Handle), ctypes.c_size_t
    try:
        functions.vemodel_open.argtypes, functions.vemodel_open.restype = [handle], ctypes.c_bool
        functions.vemodel_step.argtypes, functions.vemodel_step.restype = [handle, ctypes.c_char_p, count], _Stepped
        functions.vemodel_reply.argtypes, functions.vemodel_reply.restype = [handle, ctypes.c_char_p, count], count
        functions.vemodel_close.argtypes, functions.vemodel_close.restype = [handle], None
    except AttributeError as error:
        raise OSError(f"{path} is no library of vemodel: {error}") from None
    return functions


@cache
def _of_repository() -> Path | None:
    """Returns what bin/libvemodel says of the repository in which this file lies."""
    teller = _HERE.parents[3] / "bin" / "libvemodel"
    if not teller.is_file():
        return None
    told = subprocess.run([teller], stdout=subprocess.PIPE, stderr=subprocess.DEVNULL, text=True)
    return Path(told.stdout.rstrip("\n")) if told.returncode == 0 else None


def find() -> Path | None:
    """Returns the library that VEMODEL_LIBRARY names; else that of this package; else that of the sources of the repository round this
    file; None where there is none of them. Where that variable is empty, there is none."""
    named = os.environ.get("VEMODEL_LIBRARY")
    if named is not None:
        return Path(named) if named else None
    packed = _HERE.parent / "native" / "libvemodel.so"
    return packed if packed.is_file() else _of_repository()


class Library(World):
    """A world in this process."""

    def __init__(self, path: StrPath) -> None:
        """Opens a world by the library at a path. Raises OSError where it can't be loaded, and MemoryError."""
        super().__init__()
        self._functions = _loaded(os.fspath(path))
        self._handle = _Handle()
        self._aside: threading.Thread | None = None  # where a call with a timeout is made
        if not self._functions.vemodel_open(self._handle):
            raise MemoryError("no memory for a world")
        self._finalize = weakref.finalize(self, self._functions.vemodel_close, self._handle)
        self._finalize.atexit = False  # a call may be under way there still

    def _exchange(self, lines: Sequence[bytes], timeout: Seconds) -> list[bytes]:
        if timeout is None:
            return [self._stepped(line) for line in lines]
        # Nothing stops a call of C. So it is made aside, and where its time runs out nobody waits for it any more.
        answers: SimpleQueue[list[bytes] | Exception] = SimpleQueue()
        self._aside = threading.Thread(target=self._answer_aside, args=(lines, answers), daemon=True)
        self._aside.start()
        try:
            answer = answers.get(timeout=timeout)
        except Empty:
            raise TimedOut from None
        if isinstance(answer, Exception):
            raise answer
        return answer

    def _answer_aside(self, lines: Sequence[bytes], answers: SimpleQueue[list[bytes] | Exception]) -> None:
        replies = []
        try:
            for line in lines:
                if self._failure is None:  # else it was given up
                    replies.append(self._stepped(line))
            answers.put(replies)
        except Ended as ended:
            answers.put(ended)
        if self._failure is not None:
            self._finalize()

    def _stepped(self, line: bytes) -> bytes:
        stepped = self._functions.vemodel_step(self._handle, line, len(line))
        if stepped.status == NOT_OPEN:
            raise Ended(0)
        if stepped.status == MEMORY:
            raise Ended(6)
        reply = ctypes.create_string_buffer(stepped.length + 1)
        length = self._functions.vemodel_reply(self._handle, reply, stepped.length)
        return reply.raw[:length]

    def _stop(self) -> None:
        if self._aside is None or not self._aside.is_alive():  # else that call frees the world once it is done
            self._finalize()

    def _close(self) -> int | None:
        self._stop()
        return self._failure.status if self._failure else 0
