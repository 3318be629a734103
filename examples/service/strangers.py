"""For the check: a service that asks who somebody is, by signed tokens."""
from __future__ import annotations

import asyncio
import json
import os
import secrets
import tempfile
import time
from pathlib import Path

from aiohttp import ClientSession

import cluster
from judge import sure
from tokens import signed

Claims = dict[str, object]

KEY = secrets.token_bytes(32)
ADA: Claims = {"name": "Ada", "read": ["*"], "write": ["Notes*"], "until": time.time() + 3600}
OPERATOR: Claims = {**ADA, "operates": True}
LATE: Claims = {**ADA, "until": time.time() - 1}
# Method, path, what the token says, and the status. None is for no token.
REQUESTS: list[tuple[str, str, Claims | None, int]] = [
    ("PUT", "/pages/Notes%201", ADA, 201),
    ("PUT", "/pages/Other", ADA, 403),
    ("DELETE", "/pages/Other", ADA, 403),
    ("GET", "/pages/Notes%201", ADA, 200),
    ("GET", "/pages/Notes%201", {**ADA, "read": ["Other"]}, 403),
    ("GET", "/pages/Notes%201/lines", {**ADA, "read": ["Other"]}, 403),
    ("GET", "/pages/Notes%201", LATE, 401),
    ("GET", "/pages/Notes%201", None, 401),
    ("GET", "/pages", None, 401),
    ("GET", "/metrics", ADA, 403),
    ("GET", "/metrics", OPERATOR, 200),
    ("DELETE", "/pages/Notes%201", ADA, 204),
    ("GET", "/pages/Notes%201", ADA, 404),
]


def bearer(token: str) -> dict[str, str]:
    return {"Authorization": f"Bearer {token}"}


async def _ask(session: ClientSession, url: str) -> None:
    for method, path, claims, wanted in REQUESTS:
        headers = bearer(signed(KEY, claims)) if claims else {}
        async with session.request(method, url + path, headers=headers, data=b"<p>x</p>" if method == "PUT" else None) as told:
            sure(told.status == wanted, f"{method} {path} by {claims}: {told.status} in place of {wanted}")
    whole = signed(KEY, ADA)
    async with session.get(url + "/pages", headers={"authorization": f"bearer {whole}"}) as told:
        sure(told.status == 200, f"a token of a bearer is answered {told.status}")
    body, _, signature = whole.partition(".")
    for forged in (signed(secrets.token_bytes(32), ADA), signed(KEY, OPERATOR).partition(".")[0] + "." + signature, body, ".", "é"):
        async with session.get(url + "/pages", headers=bearer(forged)) as told:
            sure(told.status == 401, f"a forged token is answered {told.status}")


async def _talk(session: ClientSession, url: str) -> None:
    """Who may read alone has no seat, and a cookie does what the header does."""
    reader = signed(KEY, {**ADA, "write": []})
    async with session.put(url + "/pages/Notes%202", headers=bearer(signed(KEY, ADA)), data=b"<p>x</p>"):
        pass
    async with session.ws_connect(url + "/pages/Notes%202/edit", headers={"Cookie": f"vemodel={reader}"}, timeout=0.1) as socket:
        for said, wanted in (({"key": "nobody can guess it"}, '"name":"Ada"'), ({"sit": True}, "forbidden"),
                             ({"n": 1, "since": 1, "line": {"do": "send"}}, "forbidden"),
                             ({"ask": 1, "line": {"do": "html"}}, "<p>x</p>")):
            await socket.send_str(json.dumps(said))
            told = await socket.receive_str(timeout=20)
            sure(wanted in told, f"{said} of who may read is answered {told}")


async def _list(session: ClientSession, url: str) -> None:
    """Names come by pages, and each sees those that it may read."""
    writer = bearer(signed(KEY, {**ADA, "write": ["*"]}))
    for name in "ABC":
        async with session.put(f"{url}/pages/{name}", headers=writer, data=b"<p>x</p>"):
            pass
    for query, reads, wanted in (("", "*", {"pages": ["A", "B", "C", "Notes 2"]}),
                                 ("?most=2", "*", {"pages": ["A", "B"], "next": "B"}),
                                 ("?after=B&most=2", "*", {"pages": ["C", "Notes 2"]}),
                                 ("?after=Notes%202", "*", {"pages": []}),
                                 ("?most=1", "[AC]", {"pages": ["A"], "next": "A"})):
        async with session.get(f"{url}/pages{query}", headers=bearer(signed(KEY, {**ADA, "read": [reads]}))) as told:
            listed = await told.json()
        sure(listed == wanted, f"the pages{query} are {listed}")


def _without_a_key(program: Path, folder: Path) -> None:
    """A server that can't know anybody's token doesn't begin."""
    (folder / "short").write_bytes(b"abc")
    keys: list[dict[str, str]] = [{}, {"VEMODEL_KEY": str(folder / "none")}, {"VEMODEL_KEY": str(folder / "short")}]
    for key in keys:
        around = {name: value for name, value in os.environ.items() if name != "VEMODEL_KEY"}
        server = cluster.Server(folder, ["--program", str(program), "--log", str(folder / "keyless.sqlite"), "--access", "tokens:visitor"],
                                {**around, **key})
        server.start()
        try:
            sure(server.status() == 1 and "Traceback" not in server.complaints, f"a server with the key {key} begins")
        finally:
            server.end()


async def _all(url: str) -> None:
    async with ClientSession() as session:
        await _ask(session, url)
        await _talk(session, url)
        await _list(session, url)


def check_strangers(program: Path) -> None:
    with tempfile.TemporaryDirectory(prefix="vemodel-") as folder:
        _without_a_key(program, Path(folder))
        key = Path(folder) / "key"
        key.write_bytes(KEY)
        server = cluster.Server(Path(folder), ["--program", str(program), "--log", str(Path(folder) / "pages.sqlite"),
                                               "--access", "tokens:visitor"], {**os.environ, "VEMODEL_KEY": str(key)},
                                "::1" if cluster.has_ipv6() else "127.0.0.1")
        server.start()
        try:
            server.ready()
            asyncio.run(_all(f"http://{server.address}"))
        finally:
            server.end()
    print(f"service: strangers: ok: {len(REQUESTS)} requests with tokens and without")
