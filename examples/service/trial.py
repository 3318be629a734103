"""For the check: servers under load that are killed and paused, and what came of it."""
from __future__ import annotations

import argparse
import asyncio
import json
import os
import random
import secrets
import signal
import statistics
import time
from concurrent.futures import Future, ProcessPoolExecutor
from multiprocessing import get_context
from pathlib import Path
from typing import TYPE_CHECKING

from aiohttp import ClientSession

import cluster
import writers
from client import Anew, Writer
from judge import Judge, Wrong, html, run, sure
from seats import VIEW

if TYPE_CHECKING:
    from database import Postgres

WORKERS = 4  # processes that the writers are spread over
KILL = 5.0  # seconds from one kill to the next
DEAD = 1.0  # seconds until a killed server is started again
PAUSED = 13.0  # seconds for which one is paused: more than another server waits before it ends its session
PAGE = "".join(f"<p>Paragraph {n} with <b>some</b> words to edit.</p>" for n in range(40))


class Trial:
    """One engine with servers, from an empty log on."""

    def __init__(self, engine: str, folder: Path, program: Path, servers: int, names: list[str]) -> None:
        self.engine, self._program, self._names = engine, program, names
        self._base: cluster.Sqlite | Postgres
        if engine == "postgres":
            import database
            at = database.programs()
            assert at is not None
            self._base = database.Postgres(at, folder)
        else:
            self._base, servers = cluster.Sqlite(folder), 1
        words = ["--program", str(program), "--log", self._base.log]
        busy = ["--history", "--cut", "3000", "--most", "10000", "--quiet", "0.3", "--turn", "0.1"]
        self.servers = [cluster.Server(folder, words + busy) for _ in range(servers)]
        self._forgetful = cluster.Server(folder, words + ["--cut", "500", "--quiet", "0.3", "--absent", "0"])
        self.kills: list[tuple[float, str]] = []
        self.pauses = 0

    def stop(self) -> None:
        for server in (*self.servers, self._forgetful):
            server.end()
        self._base.stop()

    def write(self, seconds: float, each: int, seed: int) -> list[writers.Told]:
        """Lets people write, and kills a server every few seconds."""
        for server in self.servers:
            server.start()
        for server in self.servers:
            server.ready()
        for name in self._names:
            cluster.put(random.choice(self.servers).address, name, PAGE)
        addresses = [server.address for server in self.servers]
        workers = min(WORKERS, len(self._names))
        with ProcessPoolExecutor(workers, get_context("spawn")) as pool:
            for started in [pool.submit(time.sleep, 1) for _ in range(workers)]:
                started.result()
            until = time.monotonic() + seconds
            parts = [pool.submit(writers.run, addresses, self._names[n::workers], each, until, seed) for n in range(workers)]
            self._trouble(until, parts)
            try:
                return [told for part in parts for told in part.result()]
            except TimeoutError as fault:
                raise Wrong("the writers don't come to an end") from fault

    def _trouble(self, until: float, parts: list[Future[list[writers.Told]]]) -> None:
        while time.monotonic() + KILL < until and not any(part.done() for part in parts):
            time.sleep(KILL - DEAD)
            server = random.choice(self.servers)
            if len(self.kills) == 3 and len(self.servers) > 1 and not self.pauses:
                # Once, one is paused for so long that its pages become others', and goes on as if nothing had been.
                self.pauses += 1
                server.send(signal.SIGSTOP)
                time.sleep(PAUSED)
                server.send(signal.SIGCONT)
                continue
            self.kills.append((time.monotonic(), server.address))
            server.kill()
            time.sleep(DEAD)
            server.start()

    def judge(self, tolds: list[writers.Told]) -> None:
        """Compares what was told with what is kept. The servers end first, as they should."""
        for server in self.servers:
            sure(server.finish() == 0, f"{server.address} doesn't end when it is told to")
        log: dict[str, list[tuple[int, str]]] = {}
        for page, number, line in self._base.rows("SELECT page, number, line FROM lines ORDER BY page, number"):
            log.setdefault(page, []).append((number, line))
        self.lines = [line for name in self._names for _, line in log[name]]
        self.size = self._base.size()
        pages = {told.page: Judge(self._program, told, log[told.page]).judge() for told in tolds}
        self._forget(self._names[0], pages[self._names[0]], len(log[self._names[0]]))

    def _forget(self, name: str, page: str, lines: int) -> None:
        """A server that keeps no history deletes what stands before a cut, and the page is the same."""
        server = self._forgetful
        server.start()
        server.ready()
        sure(cluster.get(server.address, f"/pages/{name}") == page, f"{name}: another page in the end")
        asyncio.run(wander(server.address, name))
        until = time.monotonic() + 20
        while (text := cluster.get(server.address, f"/pages/{name}/lines?from=0")).count("\n") > lines:
            sure(time.monotonic() < until, f"{name}: its log isn't cut")
            time.sleep(0.1)
        again = run(self._program, [*text.splitlines(), html(VIEW)])
        sure(text.startswith('{"do":"open"') and json.loads(again[-1][3:]) == page, f"{name}: another page after the cut")

    def report(self, given: argparse.Namespace, tolds: list[writers.Told]) -> None:
        opens = sum(line.startswith('{"do":"open"') for line in self.lines)
        joins = sum('"log":{"join":' in line for line in self.lines)
        count = len(self.lines) - opens
        text = sum(len(line.encode()) + 1 for line in self.lines if not line.startswith('{"do":"open"'))
        times = takeovers(self.kills, tolds)
        print(f"service: {self.engine}: ok: {len(self.servers)} server(s), {given.pages} pages of {given.writers} writers, "
              f"{len(self.kills)} kills, {self.pauses} pause(s), {sum(told.cuts for told in tolds)} cut connections, "
              f"{opens - given.pages} cut logs, {joins} seats lent")
        print(f"service: {self.engine}: {count / given.seconds:.0f} lines a second; {text / count:.0f} bytes a line, "
              f"{self.size / count:.0f} on the disk; {os.cpu_count()} processors, load {os.getloadavg()[0]:.0f}")
        if times:
            print(f"service: {self.engine}: after a kill a page's next line was answered in {statistics.median(times):.2f} s "
                  f"(median of {len(times)}), {max(times):.2f} s at most"
                  + (f"; its only server was started again after {DEAD:.0f} s" if len(self.servers) == 1 else ""))


async def wander(server: str, name: str) -> None:
    """Moves a caret to and fro, which is enough for the log to be cut."""
    async with ClientSession() as session:
        writer = Writer(session, [server], name, secrets.token_urlsafe())
        done = 0
        while done < 40:
            try:
                await writer.change(do="select", anchor=1, focus=1 + done % 2)
                done += 1
            except Anew:
                pass
        await writer.leave()


def takeovers(kills: list[tuple[float, str]], tolds: list[writers.Told]) -> list[float]:
    """For each kill and page of the dead server: how long until a line was answered by a connection made after it."""
    found = []
    for killed, address in kills:
        for told in tolds:
            before = [server for _, since, server in told.first if since < killed]
            after = [answered for answered, since, _ in told.first if since >= killed]
            if before and after and before[-1] == address:
                found.append(after[0] - killed)
    return found
