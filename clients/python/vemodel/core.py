"""A core: the commands over a program or over the library."""
from __future__ import annotations

import json
import os
from collections.abc import Iterable

from .commands import Commands
from .errors import Refused
from .library import Library
from .library import find as find_library
from .members import Members, Seconds
from .program import Program, StrPath
from .world import World

_spelled = json.JSONEncoder(ensure_ascii=False, separators=(",", ":")).encode


class Core(Commands):
    """A core with one page open at a time, for one or more sites.

    An offset is the number of items before a place. A character is one item, however many bytes or UTF-16 units it takes, so
    offsets go with the indices of a Python `str`. A method that makes a change returns the length of the list after it. Each method
    raises Refused where the core refuses the command, and Ended where the core is over, or ends before it replies.

    Calls of several threads wait for one another. A call that is interrupted, as by Ctrl-C, or that takes longer than `timeout` seconds
    ends the core, and later ones raise Interrupted: nobody knows whether its change was made. Over the library the call itself goes on
    meanwhile, and Ctrl-C waits for its end.
    """

    def __init__(self, program: StrPath | None = None, *, library: StrPath | None = None, timeout: Seconds = None) -> None:
        """Begins over the program or the C library at this path. `timeout` is that of each call which is given none.

        Where neither is given, it is the program that the variable VEMODEL names; else the library that VEMODEL_LIBRARY names; else the
        library of this package or of the repository round it; else the program of one of these. Raises OSError where it can't be started
        or loaded, and TypeError where both are given.
        """
        if program is not None and library is not None:
            raise TypeError("a core is over a program or over a library")
        self._world = _world(program, library)
        self.timeout = timeout

    def __enter__(self) -> Core:
        return self

    def __exit__(self, *_: object) -> None:
        self.close()

    def close(self) -> None:
        """Ends the core, and its page with it. Closing it again does nothing."""
        self._world.close()

    def line(self, line: str, *, timeout: Seconds = None) -> str:
        """Returns the raw reply to a raw line, a refusal too. Raises ValueError where the line holds a newline."""
        return self.lines([line], timeout=timeout)[0]

    def lines(self, lines: Iterable[str], *, timeout: Seconds = None) -> list[str]:
        """Returns the raw replies to raw lines, which are sent ahead."""
        replies = self._world.steps([it.encode() for it in lines], self.timeout if timeout is None else timeout)
        return [it.decode() for it in replies]

    def _asked(self, do: str, members: Members, timeout: Seconds) -> str:
        reply = self.line(_spelled({"do": do, **members}), timeout=timeout)
        if reply.startswith("no "):
            raise Refused(reply[3:])
        return reply[3:]


def _world(program: StrPath | None, library: StrPath | None) -> World:
    """Begins over what is given, or else over what is named or found."""
    if library is not None:
        return Library(library)
    if program is not None:
        return Program(program)
    return _found()


def _found() -> World:
    library = None if os.environ.get("VEMODEL") else find_library()
    if library is None:
        return Program()
    try:
        return Library(library)
    except OSError:
        # That of the repository is for Linux on x86-64 alone.
        if os.environ.get("VEMODEL_LIBRARY"):
            raise
        return Program()
