"""For the check: the window in `page/`, in Node and in two windows of Chromium."""
from __future__ import annotations

import os
import shutil
import subprocess
import tempfile
from pathlib import Path

import cluster
from judge import Wrong
from window import EDITOR, found_module

PAGE = Path(__file__).with_name("page")
NODE = (20, 10)  # the first version that has WebSockets
CHROMIUMS = ("chromium", "chromium-browser", "google-chrome")


def missing() -> str:
    """What there has to be for it, and isn't."""
    if found_module() is None:
        return "vemodel.wasm"
    node = shutil.which("node")
    told = subprocess.run([node, "--version"], stdout=subprocess.PIPE, text=True).stdout if node else ""
    version = tuple(int(part) for part in told.strip().lstrip("v").split(".")[:2]) if told else (0, 0)
    return "" if version >= NODE else "Node {}.{} or later".format(*NODE)


def check_windows(program: Path) -> None:
    if lacks := missing():
        print(f"skipped: no {lacks}")
        return
    run("check.mjs", str(program), str(found_module()))
    chromium = next((found for name in CHROMIUMS if (found := shutil.which(name))), None)
    if chromium is None:
        print("skipped: no chromium")
        return
    with tempfile.TemporaryDirectory(prefix="vemodel-") as folder:
        server = cluster.Server(Path(folder), ["--program", str(program), "--log", str(Path(folder) / "pages.sqlite")])
        server.start()
        try:
            server.ready()
            run("windows.mjs", chromium, server.address)
            if (EDITOR / "session.js").exists():
                run("editors.mjs", chromium, server.address)
            else:
                print("skipped: no editor whose windows run the log themselves")
        finally:
            server.end()


def run(script: str, *words: str) -> None:
    node = ["node", "--experimental-websocket", "--no-warnings", str(PAGE / script)]
    told = subprocess.run([*node, *words], stdout=subprocess.PIPE, stderr=subprocess.STDOUT, text=True, env=os.environ)
    if told.returncode:
        raise Wrong(f"{script}: {told.stdout.strip()}")
    print(told.stdout.strip())
