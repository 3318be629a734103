"""Calls that don't end, and calls of several threads and processes."""
from __future__ import annotations

import json
import os
import pickle
import signal
import threading
from collections.abc import Callable

from vemodel import Core, Interrupted, TimedOut

from cores import LONG, OverLibrary, OverProgram, needs_library


class Calls(OverProgram):
    def test_threads(self) -> None:
        """A core in each of four threads, and then one in all."""
        wrong: list[Core] = []

        def type_letters(core: Core) -> None:
            for _ in range(200):
                if core.text(1, "x") < 5:
                    wrong.append(core)

        def alone() -> None:
            with self.begin() as core:
                core.open("<p></p>")
                type_letters(core)
                if core.html() != f"<p>{'x' * 200}</p>":
                    wrong.append(core)

        self.core.open("<p></p>")
        for run in (alone, lambda: type_letters(self.core)):
            threads = [threading.Thread(target=run) for _ in range(4)]
            for it in threads:
                it.start()
            for it in threads:
                it.join()
        self.assertEqual((wrong, self.core.html()), ([], f"<p>{'x' * 800}</p>"))

    def interrupt(self, milliseconds: float, handler: Callable[..., object]) -> None:
        """Has a signal's handler run after so long."""
        before = signal.signal(signal.SIGALRM, handler)
        self.addCleanup(signal.signal, signal.SIGALRM, before)
        signal.setitimer(signal.ITIMER_REAL, milliseconds / 1000)

    def is_over(self, core: Core) -> None:
        with self.assertRaises(Interrupted) as caught:
            core.text(1, "Z")
        self.assertIsNone(caught.exception.status)
        self.assertEqual(str(pickle.loads(pickle.dumps(caught.exception))), str(caught.exception))
        core.close()
        with self.assertRaises(Interrupted):
            core.html()

    def test_a_call_that_is_interrupted(self) -> None:
        """Wherever that is, later lines have their own replies, or none."""

        def raises(*_: object) -> None:
            raise KeyboardInterrupt

        line = json.dumps({"do": "open", "page": LONG})
        for milliseconds in range(5, 500, 5):
            core = self.begin()
            with self.assertRaises(KeyboardInterrupt):
                self.interrupt(milliseconds, raises)
                while True:
                    core.line(line)
            try:
                self.assertEqual(core.line("{"), "no bad_json")  # it came between two calls
                core.close()
            except Interrupted:
                self.is_over(core)
                return
        self.fail("it never came within a call")

    def test_a_call_that_takes_too_long(self) -> None:
        with self.assertRaises(TimedOut) as caught:
            self.core.open(LONG, timeout=0.001)
        self.assertIsInstance(caught.exception, TimeoutError)
        self.is_over(self.core)

    def test_a_time_for_all_calls(self) -> None:
        self.core.timeout = 60
        self.assertEqual(self.core.open(LONG), len(LONG) - 3)
        self.core.timeout = 0.001
        self.assertEqual(self.core.html(timeout=60), LONG)
        with self.assertRaises(TimedOut):
            self.core.open(LONG)

    def test_odd_times(self) -> None:
        for long in (float("inf"), 1e300):
            self.assertEqual(self.core.line("{", timeout=long), "no bad_json")
        with self.assertRaises(ValueError):
            self.core.line("{", timeout=float("nan"))
        self.assertEqual(self.core.line("{"), "no bad_json")
        with self.assertRaises(TimedOut):
            self.core.open(LONG, timeout=-1)

    def test_a_call_from_within_a_call(self) -> None:
        said: list[object] = []

        def asks(*_: object) -> None:
            try:
                said.append(self.core.html())
            except RuntimeError as error:
                said.append(error)

        self.core.open(LONG)
        self.interrupt(3, asks)
        while not said:
            self.assertEqual(self.core.open(LONG), len(LONG) - 3)
        self.assertIn(type(said[0]), (RuntimeError, str))  # a text, where it came between two calls
        self.assertEqual(self.core.html(), LONG)

    def test_a_fork(self) -> None:
        self.core.open("<p>ab</p>")
        child = os.fork()
        if child == 0:
            try:
                self.core.html()
            except RuntimeError:
                os._exit(0)
            os._exit(1)
        self.assertEqual(os.waitpid(child, 0)[1], 0)
        self.assertEqual(self.core.html(), "<p>ab</p>")


@needs_library
class CallsOverTheLibrary(OverLibrary, Calls):
    pass
