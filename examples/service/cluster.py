"""For the check: a file and servers of its own, in a folder of its own. Nothing else is started, and nothing else is ended."""
from __future__ import annotations

import contextlib
import os
import signal
import socket
import sqlite3
import subprocess
import sys
import time
import urllib.request
from collections.abc import Mapping
from pathlib import Path
from typing import Any

SERVER = Path(__file__).with_name("server.py")


class Sqlite:
    """A file."""

    def __init__(self, folder: Path) -> None:
        self.log = str(folder / "pages.sqlite")

    def rows(self, query: str) -> list[tuple[Any, ...]]:
        with contextlib.closing(sqlite3.connect(self.log)) as file:
            return file.execute(query).fetchall()

    def size(self) -> int:
        return Path(self.log).stat().st_size

    def stop(self) -> None:
        pass


class Server:
    """One server, which is killed and started again at the same address."""

    def __init__(self, folder: Path, words: list[str], environment: Mapping[str, str] = os.environ, host: str = "127.0.0.1") -> None:
        is_6 = ":" in host
        with socket.create_server((host, 0), family=socket.AF_INET6 if is_6 else socket.AF_INET) as free:
            self._at = host, int(free.getsockname()[1])
        self.address = f"[{host}]:{self._at[1]}" if is_6 else f"{host}:{self._at[1]}"
        self._words = [sys.executable, str(SERVER), "--listen", self.address, *words]
        self._environment = environment
        self._log = open(folder / "servers.log", "a")
        self._process: subprocess.Popen[bytes] | None = None

    def start(self) -> None:
        self._process = subprocess.Popen(self._words, stdout=subprocess.DEVNULL, stderr=self._log, env=self._environment)

    def ready(self) -> None:
        until = time.monotonic() + 30
        while True:
            try:
                with socket.create_connection(self._at):
                    return
            except OSError:
                if time.monotonic() > until:
                    raise SystemExit(f"service: no server: see {self._log.name}") from None
                time.sleep(0.05)

    @property
    def memory(self) -> int:
        """The bytes that its process has in memory; its programs aren't counted."""
        assert self._process is not None
        return resident(self._process.pid)

    @property
    def seconds(self) -> float:
        """Of a processor that its process has taken."""
        assert self._process is not None
        user, system = Path(f"/proc/{self._process.pid}/stat").read_text().rpartition(") ")[2].split()[11:13]
        return (int(user) + int(system)) / os.sysconf("SC_CLK_TCK")

    @property
    def programs(self) -> list[int]:
        """The processes that it started."""
        assert self._process is not None
        children = Path(f"/proc/{self._process.pid}/task").glob("*/children")
        return [int(child) for task in children for child in task.read_text().split()]

    @property
    def memory_of_programs(self) -> int:
        return sum(map(resident, self.programs))

    @property
    def complaints(self) -> str:
        return Path(self._log.name).read_text()

    def send(self, number: signal.Signals) -> None:
        assert self._process is not None
        self._process.send_signal(number)

    def kill(self) -> None:
        self.send(signal.SIGKILL)
        assert self._process is not None
        self._process.wait()
        self._process = None

    def finish(self) -> int:
        """Tells it to end; its status."""
        self.send(signal.SIGTERM)
        return self.status()

    def status(self) -> int:
        """Waits until it has ended."""
        assert self._process is not None
        status = self._process.wait(20)
        self._process = None
        return status

    def end(self) -> None:
        if self._process is not None:
            self.kill()


def has_ipv6() -> bool:
    with contextlib.suppress(OSError), socket.create_server(("::1", 0), family=socket.AF_INET6):
        return True
    return False


def resident(process: int) -> int:
    """The bytes that a process has in memory; none where it has ended."""
    try:
        return int(Path(f"/proc/{process}/statm").read_text().split()[1]) * os.sysconf("SC_PAGE_SIZE")
    except OSError:
        return 0


def put(address: str, page: str, html: str) -> None:
    asked = urllib.request.Request(f"http://{address}/pages/{page}", data=html.encode(), method="PUT")
    with urllib.request.urlopen(asked) as told:
        assert told.status == 201


def get(address: str, path: str) -> str:
    with urllib.request.urlopen(f"http://{address}{path}") as told:
        text: str = told.read().decode()
        return text
