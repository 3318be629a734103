#!/usr/bin/python3
"""Measures the service under many open readers and some writers: how long an answer takes, how long until readers have a
line, and the memory of the server and of its programs.

    examples/service/load.py --readers 10000 --writers 200 --pages 40 --seconds 60
"""
from __future__ import annotations

import argparse
import asyncio
import os
import random
import resource
import secrets
import statistics
import struct
import tempfile
import time
from concurrent.futures import Future, ProcessPoolExecutor
from dataclasses import dataclass, field
from multiprocessing import get_context
from pathlib import Path

from aiohttp import ClientSession, TCPConnector

import cluster
from client import Anew, Refused, Writer
from programs import PROGRAM

WORKERS = 3  # processes of readers and writers
AT_ONCE = 50  # readers that connect at once, in each of them
PAGE = "".join(f"<p>Paragraph {n} with <b>some</b> words to edit.</p>" for n in range(40))
STAMP = b"sent at "  # stands before the time at which a line was sent, in its text


@dataclass
class Told:
    readers: int = 0  # that were open to the end
    messages: int = 0
    changes: int = 0
    late: list[float] = field(default_factory=list)  # seconds until a reader had a line
    answers: list[float] = field(default_factory=list)  # seconds until a change was answered


class Reader(asyncio.Protocol):
    """Follows a page, and answers pings. The lines themselves aren't looked at, but for the time of one."""

    def __init__(self, told: Told, page: str, host: str) -> None:
        self._told, self._page, self._host = told, page, host
        self._bytes = b""
        self._begun = False
        self._transport: asyncio.Transport | None = None

    def connection_made(self, transport: asyncio.BaseTransport) -> None:
        assert isinstance(transport, asyncio.Transport)
        self._transport = transport
        transport.write(
            f"GET /pages/{self._page}/follow HTTP/1.1\r\nHost: {self._host}\r\nUpgrade: websocket\r\nConnection: Upgrade\r\n"
            "Sec-WebSocket-Key: dGhlIHNhbXBsZSBub25jZQ==\r\nSec-WebSocket-Version: 13\r\n\r\n".encode())

    def data_received(self, data: bytes) -> None:
        self._bytes += data
        if not self._begun:
            head, end, rest = self._bytes.partition(b"\r\n\r\n")
            if not end:
                return
            self._begun, self._bytes = True, rest
            self._told.readers += head.startswith(b"HTTP/1.1 101")
        while (size := frame_size(self._bytes)) and len(self._bytes) >= size:
            frame, self._bytes = self._bytes[:size], self._bytes[size:]
            self._heard(frame)

    def _heard(self, frame: bytes) -> None:
        if frame[0] == 0x89 and self._transport is not None:
            self._transport.write(b"\x8a\x80\0\0\0\0")
            return
        self._told.messages += 1
        at = frame.find(STAMP)
        if at >= 0 and self._told.messages % 50 == 0:
            sent = int(frame[at + len(STAMP):].partition(b" ")[0])
            self._told.late.append((time.monotonic_ns() - sent) / 1e9)

    def connection_lost(self, fault: Exception | None) -> None:
        self._told.readers -= self._begun

    def close(self) -> None:
        if self._transport is not None:
            self._transport.abort()


def frame_size(data: bytes) -> int:
    """Of the first frame; 0 where its head isn't there yet."""
    if len(data) < 2:
        return 0
    length = data[1] & 0x7F
    if length < 126:
        return 2 + length
    head = 4 if length == 126 else 10
    return head + int(struct.unpack(">H" if length == 126 else ">Q", data[2:head])[0]) if len(data) >= head else 0


async def write(session: ClientSession, server: str, page: str, pause: float, until: float, told: Told) -> None:
    """A person: some letters and their sending, and a pause."""
    writer = Writer(session, [server], page, secrets.token_urlsafe())
    await asyncio.sleep(random.uniform(0, pause))
    while time.monotonic() < until:
        began = time.monotonic()
        try:
            await writer.change(do="text", at=random.randrange(1, 20), text=f"sent at {time.monotonic_ns()} ")
            told.answers.append(time.monotonic() - began)
            await writer.change(do="send")
            while (await writer.change(do="take"))["reply"].startswith("ok"):
                pass
            await writer.change(do="remove", **{"from": 1, "to": 25})  # so that the page stays as long as it is
            told.changes += 2
        except (Anew, Refused):
            pass
        await asyncio.sleep(max(0, pause * random.uniform(0.5, 1.5) - (time.monotonic() - began)))
    await writer.leave()


async def _work(server: str, readers: list[str], writers: list[str], pause: float, begin: float, until: float) -> Told:
    told = Told()
    loop = asyncio.get_running_loop()
    host, _, port = server.partition(":")
    many = asyncio.Semaphore(AT_ONCE)

    async def open_one(page: str) -> Reader:
        async with many:
            _, reader = await loop.create_connection(lambda: Reader(told, page, server), host, int(port))
            return reader

    opened = await asyncio.gather(*map(open_one, readers))
    await asyncio.sleep(max(0, begin - time.monotonic()))
    told.messages = 0
    async with ClientSession(connector=TCPConnector(limit=0)) as session:
        await asyncio.gather(*(write(session, server, page, pause, until, told) for page in writers))
    told = Told(**vars(told))
    for reader in opened:
        reader.close()
    return told


def work(server: str, readers: list[str], writers: list[str], pause: float, begin: float, until: float) -> Told:
    many_files()
    return asyncio.run(_work(server, readers, writers, pause, begin, until))


def many_files() -> None:
    _, most = resource.getrlimit(resource.RLIMIT_NOFILE)
    resource.setrlimit(resource.RLIMIT_NOFILE, (most, most))


def watched(server: cluster.Server, parts: list[Future[Told]]) -> tuple[int, int]:
    """The most memory of the server, and of its programs together, until all parts have ended."""
    own = programs = 0
    while not all(part.done() for part in parts):
        time.sleep(0.5)
        own, programs = max(own, server.memory), max(programs, server.memory_of_programs)
    return own, programs


def measure(given: argparse.Namespace, folder: Path) -> None:
    server = cluster.Server(folder, ["--program", str(given.program), "--log", str(folder / "pages.sqlite"),
                                     "--programs", str(given.pages + 2)])
    server.start()
    try:
        server.ready()
        pages = [f"page-{n}" for n in range(given.pages)]
        for page in pages:
            cluster.put(server.address, page, PAGE)
        begin = time.monotonic() + given.readers / 500 + 5
        readers = [pages[n % len(pages)] for n in range(given.readers)]
        writers = [pages[n % len(pages)] for n in range(given.writers)]
        with ProcessPoolExecutor(WORKERS, get_context("spawn")) as pool:
            parts = [pool.submit(work, server.address, readers[n::WORKERS], writers[n::WORKERS], given.pause, begin,
                                 begin + given.seconds) for n in range(WORKERS)]
            time.sleep(max(0, begin - time.monotonic()))
            spent = -server.seconds
            own, programs = watched(server, parts)
            spent += server.seconds
            report(given, [part.result() for part in parts], own, programs)
            print(f"load: the server took {spent / given.seconds:.2f} of a processor")
    finally:
        server.end()


def report(given: argparse.Namespace, tolds: list[Told], own: int, programs: int) -> None:
    answers = sorted(time for told in tolds for time in told.answers)
    late = sorted(time for told in tolds for time in told.late)
    print(f"load: {sum(told.readers for told in tolds)} readers open to the end, {given.writers} writers, {given.pages} pages, "
          f"{given.seconds:.0f} s; {os.cpu_count()} processors, load {os.getloadavg()[0]:.0f}")
    print(f"load: {sum(told.changes for told in tolds) / given.seconds:.0f} changes a second, "
          f"{sum(told.messages for told in tolds) / given.seconds:.0f} messages to readers a second")
    for what, times in ("an answer", answers), ("a line at a reader", late):
        if times:
            print(f"load: {what} after {statistics.median(times) * 1000:.0f} ms (median), "
                  f"{times[int(len(times) * 0.99)] * 1000:.0f} ms (99 of 100), {times[-1] * 1000:.0f} ms at most")
    print(f"load: memory: {own >> 20} MiB of the server, {own // max(1, given.readers) >> 10} KiB a reader; "
          f"{programs >> 20} MiB of its programs")


def main() -> None:
    words = argparse.ArgumentParser(description=__doc__)
    words.add_argument("--readers", type=int, default=10_000)
    words.add_argument("--writers", type=int, default=200)
    words.add_argument("--pages", type=int, default=40)
    words.add_argument("--seconds", type=float, default=60)
    words.add_argument("--pause", type=float, default=1, metavar="SECONDS", help="from one change of a writer to the next, about")
    words.add_argument("--program", type=Path, default=PROGRAM)
    many_files()
    with tempfile.TemporaryDirectory(prefix="vemodel-") as folder:
        measure(words.parse_args(), Path(folder))


if __name__ == "__main__":
    main()
