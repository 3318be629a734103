"""The program for asyncio."""
from __future__ import annotations

import asyncio
import json
import unittest

from vemodel import AsyncProgram, Ended, Interrupted, TimedOut
from vemodel.program import find

from cores import LONG, program_of
from examples import scripts


class Asynchronous(unittest.IsolatedAsyncioTestCase):
    async def asyncSetUp(self) -> None:
        self.program = await AsyncProgram.start(find())
        self.addAsyncCleanup(self.program.close)

    async def test_every_raw_line_of_the_examples(self) -> None:
        for name, lines in scripts():
            program = await AsyncProgram.start()
            self.assertEqual(await program.run([line for line, _ in lines]), [reply for _, reply in lines], name)
            self.assertEqual(program.room, (64 << 20) - sum(len(line.encode()) + 1 for line, _ in lines))
            await program.close()

    async def test_two_tasks(self) -> None:
        await self.program.run(['{"do":"open","page":"<p></p>"}'])
        line = '{"do":"text","at":1,"text":"x"}'
        runs = await asyncio.gather(*(self.program.run([line] * 50) for _ in range(4)))
        self.assertEqual(sum(runs, []), [f"ok {k}" for k in range(5, 205)])

    async def test_a_run_that_is_cancelled_or_late(self) -> None:
        line = json.dumps({"do": "open", "page": LONG})
        late = await AsyncProgram.start(find())
        with self.assertRaises(TimedOut):
            await late.run([line], timeout=0.001)
        run = asyncio.ensure_future(self.program.run([line]))
        await asyncio.sleep(0.005)
        run.cancel()
        with self.assertRaises(asyncio.CancelledError):
            await run
        for program in (late, self.program):
            with self.assertRaises(Interrupted):
                await program.run(["{"])
            self.assertEqual(await program.close(), -9)

    async def test_a_program_that_is_dropped(self) -> None:
        program = await AsyncProgram.start(find())
        await program.run(["{"])
        process = program._process
        del program
        self.assertEqual(await asyncio.wait_for(process.wait(), 10), -9)

    async def test_the_end(self) -> None:
        with program_of("read -r line; echo ok 1; exit 6") as path:
            program = await AsyncProgram.start(path)
            with self.assertRaises(Ended) as caught:
                await program.run(["{", "{"])
            self.assertEqual(caught.exception.status, 6)
        with self.assertRaises(ValueError):
            await self.program.run(["\n"])
        await self.program.close()
        with self.assertRaises(Ended):
            await self.program.run(["{"])
