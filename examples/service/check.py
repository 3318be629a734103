"""Runs the service under load while servers are killed, paused and connections cut, and compares what was answered with
what is in the log, with what its followers were sent, and with what the program replies to the log. Then it sends what an
adversary would."""
from __future__ import annotations

import argparse
import json
import shutil
import subprocess
import sys
import tempfile
from concurrent.futures import ThreadPoolExecutor
from importlib.util import find_spec
from pathlib import Path

if find_spec("aiohttp") is None:
    print("skipped: no python3-aiohttp")
    sys.exit(0)

from judge import Wrong
from programs import PROGRAM, ROOT
from seats import CHANGES, CLOSED, READS
from siege import attack, attack_postgres
from strangers import check_strangers
from trial import Trial
from windows import check_windows


def trial(engine: str, given: argparse.Namespace) -> None:
    folder = Path(tempfile.mkdtemp(prefix="vemodel-"))
    it = Trial(engine, folder, given.program, given.servers, [f"page-{n}" for n in range(given.pages)])
    try:
        tolds = it.write(given.seconds, given.writers, given.seed)
        it.judge(tolds)
    except Wrong as fault:
        print(f"service: {engine}: {fault}; see {folder}")
        raise SystemExit(1) from fault
    finally:
        it.stop()
    shutil.rmtree(folder)
    it.report(given, tolds)


def know_commands() -> None:
    """The service knows every command of the program, and no other."""
    table = {row["do"] for row in json.loads((ROOT / "clients" / "commands.json").read_text())}
    known = READS | CHANGES | CLOSED
    if known != table:
        raise SystemExit(f"service: seats.py and clients/commands.json differ: {known ^ table}")


def no_postgres() -> str:
    """What is missing for it."""
    if find_spec("psycopg") is None:
        return "python3-psycopg"
    from database import programs
    return "" if programs() else "postgresql"


def main() -> None:
    words = argparse.ArgumentParser(description=__doc__)
    words.add_argument("--seconds", type=float, default=60)
    words.add_argument("--engine", choices=("sqlite", "postgres"), help="both, if it isn't given")
    words.add_argument("--servers", type=int, default=4)
    words.add_argument("--pages", type=int, default=40)
    words.add_argument("--writers", type=int, default=10)
    words.add_argument("--seed", type=int, default=1)
    words.add_argument("--program", type=Path, default=PROGRAM)
    given = words.parse_args()
    if subprocess.run([given.program, "run"], stdin=subprocess.DEVNULL, stdout=subprocess.DEVNULL).returncode:
        print("skipped: no program")
        return
    know_commands()
    for engine in (given.engine,) if given.engine else ("sqlite", "postgres"):
        if engine == "postgres" and (missing := no_postgres()):
            print(f"skipped: no {missing}")
            continue
        trial(engine, given)
    more = [] if no_postgres() or given.engine == "sqlite" else [attack_postgres]
    with ThreadPoolExecutor() as pool:
        parts = [pool.submit(part, given.program) for part in (attack, check_strangers, check_windows, *more)]
    for part in parts:
        fault = part.exception()
        if fault is not None:
            print(f"service: {fault!r}")
            raise SystemExit(1) from fault


if __name__ == "__main__":
    main()
