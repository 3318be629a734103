"""The files of the window in `page/`, of examples/editor over this service, and of the program that runs in both."""
from __future__ import annotations

import os
from pathlib import Path

from aiohttp import web

from programs import ROOT

TYPES = {".html": "text/html", ".css": "text/css", ".js": "text/javascript", ".wasm": "application/wasm"}
# Scripts are this service's alone, and no page can bring its own.
POLICY = ("default-src 'none'; script-src 'self' 'wasm-unsafe-eval'; style-src 'self'; connect-src 'self'; "
          "img-src 'self' data:; base-uri 'none'; form-action 'none'; frame-ancestors 'none'")
MODULE = "vemodel.wasm"
WEB = ROOT / "clients" / "web"
PAGE = Path(__file__).with_name("page")
EDITOR = ROOT / "examples" / "editor" / "page"


def found_module() -> Path | None:
    """The program for browsers: the one that VEMODEL_MODULE names, or that of the repository."""
    named = os.environ.get("VEMODEL_MODULE")
    found = [Path(named)] if named else [WEB / MODULE, ROOT / "release" / MODULE]
    return next((file for file in found if file.exists()), None)


def folder(at: str, files: Path) -> dict[str, Path]:
    return {f"{at}{file.name}": file for file in files.iterdir() if file.suffix in TYPES}


class Window:
    def __init__(self) -> None:
        self._files: dict[str, Path] = {}
        module = found_module()
        for at in "/web/", "/editor/vemodel/":
            self._files |= folder(at, WEB) if WEB.exists() else {}
            self._files |= {at + MODULE: module} if module else {}
        self._files |= folder("/window/", PAGE)
        # What the editor has of its own server is replaced.
        self._files |= folder("/editor/", EDITOR) | folder("/editor/", PAGE / "editor")
        self._files |= {at: self._files[at + "index.html"] for at in ("/window/", "/editor/")}

    def routes(self) -> list[web.RouteDef]:
        return [web.get("/{folder:window|web|editor}/{file:.*}", self.file)]

    async def file(self, request: web.Request) -> web.StreamResponse:
        file = self._files.get(request.path)
        if file is None:
            raise web.HTTPNotFound(text="no such file\n")
        return web.FileResponse(file, headers={
            "Content-Type": TYPES[file.suffix], "Content-Security-Policy": POLICY, "Cache-Control": "no-cache"})
