"""Which program or library a core is over, how these end, and what is left of one that is dropped."""
from __future__ import annotations

import gc
import json
import os
import pickle
import unittest
from pathlib import Path
from unittest import mock

from vemodel import Core, Ended, Library, Program, TimedOut, library
from vemodel.program import find

from cores import LONG, OverLibrary, needs_library, program_of
from examples import EXAMPLES


class Ends(unittest.TestCase):
    def ended(self, commands: str) -> Ended:
        """Returns the error of a line that is sent to a program which runs these shell commands."""
        with program_of(commands) as path, Core(path) as core, self.assertRaises(Ended) as caught:
            core.html()
        return caught.exception

    def test_statuses_in_words(self) -> None:
        ended = self.ended("exit 6")
        self.assertEqual((ended.status, str(ended)), (6, "the core ended with status 6: there was no memory"))
        self.assertIn("67,108,864", str(self.ended("read -r line; exit 5")))
        self.assertEqual(str(self.ended("kill -9 $$")), "the core ended with status -9: Killed")
        self.assertEqual(str(pickle.loads(pickle.dumps(ended))), str(ended))

    def test_a_reply_that_breaks_off(self) -> None:
        self.assertEqual(self.ended("read -r line; printf 'ok 1'; exit 4").status, 4)

    def test_a_program_that_is_dropped(self) -> None:
        pids = []
        for _ in range(5):
            core = Core(find())
            core.open("<p>ab</p>")
            assert isinstance(core._world, Program)
            pids.append(core._world.process.pid)
        del core
        gc.collect()
        for pid in pids:
            with self.assertRaises(ProcessLookupError):
                os.kill(pid, 0)

    def test_the_interrupt_of_a_terminal(self) -> None:
        """It goes to all processes of the terminal's session, which the program's isn't."""
        program = Program(find())
        self.addCleanup(program.close)
        self.assertNotEqual(os.getsid(program.process.pid), os.getsid(0))

    def test_a_program_that_is_slow(self) -> None:
        """It is killed, also where it doesn't read."""
        for line in ("read -r line; exec sleep 60", "exec sleep 60"):
            with program_of(line) as path, Core(path, timeout=0.2) as core, self.assertRaises(TimedOut):
                core.text(0, "x" * 1_000_000)

    def test_memory_of_a_program(self) -> None:
        program = Program(find(), memory=100_000_000)
        line = json.dumps({"do": "open", "page": LONG, "sites": 8}).encode()
        self.assertEqual(program.step(b"{"), b"no bad_json")
        with self.assertRaises(Ended) as caught:
            program.step(line)
        self.assertEqual((caught.exception.status, program.close()), (6, 6))

    def test_status_of_a_program_that_is_closed(self) -> None:
        program = Program()
        program.step(b"{}")
        self.assertEqual(program.close(), 0)

    def test_where_the_program_is_found(self) -> None:
        with mock.patch.dict(os.environ, {"VEMODEL": "/no/such/program"}):
            self.assertEqual(find(), Path("/no/such/program"))
            with self.assertRaises(FileNotFoundError):
                Core()
        with mock.patch.dict(os.environ, {"VEMODEL": "", "VEMODEL_LIBRARY": "/no/such/library.so"}):
            self.assertEqual(library.find(), Path("/no/such/library.so"))
            with self.assertRaises(OSError):
                Core()
        with mock.patch.dict(os.environ, {"VEMODEL": "", "VEMODEL_LIBRARY": ""}), Core() as core:
            self.assertIsInstance(core._world, Program)
        with mock.patch.dict(os.environ):
            os.environ.pop("VEMODEL", None)
            self.assertEqual(find(), EXAMPLES.parent / "bin" / "vemodel")


@needs_library
class Libraries(OverLibrary):
    def test_it_is_the_library_that_is_found(self) -> None:
        with mock.patch.dict(os.environ):
            os.environ.pop("VEMODEL", None)
            with Core() as core:
                self.assertIsInstance(core._world, Library)
        with mock.patch.dict(os.environ, {"VEMODEL": str(find())}), Core() as core:
            self.assertIsInstance(core._world, Program)
        with self.assertRaises(TypeError):
            Core(find(), library=library.find())

    def test_a_world_that_is_not_closed(self) -> None:
        core = self.begin()
        core.open("<p>ab</p>")
        assert isinstance(core._world, Library)
        handle = core._world._handle
        del core
        self.assertFalse(handle.is_open)
