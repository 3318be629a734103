"""Cores to be tested: over the program, over the library, and over other programs."""
from __future__ import annotations

import stat
import tempfile
import unittest
from contextlib import contextmanager
from pathlib import Path
from collections.abc import Iterator

from vemodel import Core, library
from vemodel.program import find

#: A page that takes tens of milliseconds.
LONG = f"<p>{'x' * 3_000_000}</p>"
needs_library = unittest.skipUnless(library.find(), "there is no library")


class OverProgram(unittest.TestCase):
    """A test with a core over the program; its kind over the library inherits it."""

    def begin(self) -> Core:
        return Core(find())

    def setUp(self) -> None:
        self.core = self.begin()
        self.addCleanup(self.core.close)


class OverLibrary(OverProgram):
    def begin(self) -> Core:
        return Core(library=library.find())


@contextmanager
def program_of(commands: str) -> Iterator[Path]:
    """Gives the path of a program that runs these shell commands."""
    with tempfile.TemporaryDirectory() as folder:
        path = Path(folder, "program")
        path.write_text(f"#!/bin/sh\n{commands}\n")
        path.chmod(path.stat().st_mode | stat.S_IXUSR)
        yield path
