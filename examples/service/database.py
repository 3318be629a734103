"""For the check: a PostgreSQL of its own, in a folder of its own."""
from __future__ import annotations

import os
import shutil
import signal
import subprocess
import time
from pathlib import Path
from typing import Any

import psycopg


def programs() -> Path | None:
    """The folder of `initdb` and `postgres`, which Debian keeps off the path."""
    found = shutil.which("initdb")
    folders = sorted(Path("/usr/lib/postgresql").glob("*/bin"), reverse=True)
    folders += [Path(found).parent] if found else []
    return next((folder for folder in folders if (folder / "initdb").exists() and (folder / "postgres").exists()), None)


class Postgres:
    """Listens on a socket in its folder alone. It refuses to run as root, and then runs as `postgres`."""

    def __init__(self, at: Path, folder: Path) -> None:
        base = folder / "postgres"
        base.mkdir()
        user = "postgres" if os.getuid() == 0 else None
        if user:
            folder.chmod(0o755)
            shutil.chown(base, user, user)
        with open(folder / "postgres.log", "w") as log:
            subprocess.run([at / "initdb", "-D", base / "data", "-A", "trust", "-U", "vemodel", "-E", "UTF8", "--no-locale"],
                           stdout=log, stderr=log, check=True, user=user, group=user, cwd="/")
            self._process = subprocess.Popen(
                [at / "postgres", "-D", base / "data", "-k", base, "-c", "listen_addresses=", "-c", "unix_socket_permissions=0700"],
                stdout=log, stderr=log, user=user, group=user, cwd="/")
        self.log = f"postgresql://vemodel@/postgres?host={base}"
        until = time.monotonic() + 30
        while True:
            try:
                psycopg.connect(self.log).close()
                return
            except psycopg.OperationalError:
                if time.monotonic() > until or self._process.poll() is not None:
                    self.stop()
                    raise SystemExit(f"service: no database: see {folder}/postgres.log") from None
                time.sleep(0.1)

    def rows(self, query: str) -> list[tuple[Any, ...]]:
        with psycopg.connect(self.log) as base:
            return base.execute(query).fetchall()

    def size(self) -> int:
        """The bytes of the lines on the disk, with their index."""
        return int(self.rows("SELECT pg_total_relation_size('lines')")[0][0])

    def stop(self) -> None:
        self._process.send_signal(signal.SIGINT)
        self._process.wait()
