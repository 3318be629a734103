"""Shared by tools/check-memory, tools/check-refusals and bench/: lines, and the Python client's program with times and memory."""
from __future__ import annotations

import fcntl
import json
import sys
import time
from pathlib import Path
from collections.abc import Sequence
from typing import Any

sys.path.insert(0, str(Path(__file__).resolve().parents[1] / "clients/python"))
from vemodel import Ended, Program

__all__ = ["Ended", "Run", "line"]
SET_PIPE_SIZE = 1031  # Linux's F_SETPIPE_SZ, which Python 3.9 doesn't name
PIPE = 1 << 20  # as many bytes as a pipe may hold, so that a long reply is written without a wait


def line(do: str, **members: Any) -> bytes:
    """Returns a line of a script. A member whose name is a word of Python is given with `_` behind it, as `from_` is."""
    named = {name.rstrip("_"): value for name, value in members.items()}
    return json.dumps({"do": do, **named}, separators=(",", ":")).encode() + b"\n"


class Run(Program):
    """A program that is running, by a command whose last words are the program and `run`. With `memory` it may take so many bytes of
    addresses at most."""

    def __init__(self, command: Sequence[str], memory: int | None = None) -> None:
        *under, path, _ = command
        super().__init__(path, memory=memory, under=under)
        assert self.process.stdout
        fcntl.fcntl(self.process.stdout, SET_PIPE_SIZE, PIPE)

    def timed(self, lines: bytes) -> tuple[int, bytes]:
        """Returns how many nanoseconds went by until all the replies were there, and the replies."""
        began = time.perf_counter_ns()
        replies = self.ask(lines)
        return time.perf_counter_ns() - began, replies

    def peak(self) -> int:
        """Returns the most memory that the program has had so far, in KiB. The `ru_maxrss` of a child would count its parent's, too,
        which the child has until it becomes the program."""
        with open(f"/proc/{self.process.pid}/status") as file:
            return next(int(it.split()[1]) for it in file if it.startswith("VmHWM:"))
