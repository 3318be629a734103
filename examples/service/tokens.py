#!/usr/bin/python3
"""Signed tokens, as an example of one's own authorisation: `server.py --access tokens:visitor`.

A token says who somebody is, which pages they may read and write, and until when; whoever has the key can make one, and
none can be changed without it. It comes as `Authorization: Bearer TOKEN`, or in the cookie `vemodel`. The file of the
key is named by the variable VEMODEL_KEY, and has 32 random bytes or more.

    head -c 32 /dev/urandom > key; export VEMODEL_KEY=key
    examples/service/tokens.py --name Ada --read '*' --write 'Notes*' --hours 12
"""
from __future__ import annotations

import argparse
import hmac
import json
import os
import time
from base64 import urlsafe_b64decode, urlsafe_b64encode
from fnmatch import fnmatchcase
from functools import lru_cache, partial
from pathlib import Path
from typing import Any

from aiohttp import web

from access import Visitor


def signed(key: bytes, claims: dict[str, Any]) -> str:
    body = urlsafe_b64encode(json.dumps(claims).encode())
    return (body + b"." + urlsafe_b64encode(hmac.digest(key, body, "sha256"))).decode()


def opened(key: bytes, token: str, now: float) -> dict[str, Any] | None:
    """What a token says; None where it isn't signed by this key, or its time is over."""
    body, _, signature = token.encode(errors="replace").partition(b".")
    if not hmac.compare_digest(urlsafe_b64encode(hmac.digest(key, body, "sha256")), signature):
        return None
    claims: dict[str, Any] = json.loads(urlsafe_b64decode(body))
    return claims if now < claims["until"] else None


@lru_cache
def the_key() -> bytes:
    try:
        key = Path(os.environ["VEMODEL_KEY"]).read_bytes()
    except (KeyError, OSError) as fault:
        raise SystemExit(f"VEMODEL_KEY is to name the file of the key of tokens: {fault}") from fault
    if len(key) < 32:
        raise SystemExit("the key of tokens is to have 32 bytes or more")
    return key


def ready() -> None:
    the_key()


def matches(patterns: list[str], page: str) -> bool:
    return any(fnmatchcase(page, pattern) for pattern in patterns)


def visitor(request: web.Request) -> Visitor | None:
    kind, _, token = request.headers.get("Authorization", "").partition(" ")
    if kind.lower() != "bearer":
        token = "" if kind else request.cookies.get("vemodel", "")
    claims = opened(the_key(), token, time.time())
    if claims is None:
        return None
    return Visitor(claims["name"], partial(matches, claims["read"]), partial(matches, claims["write"]),
                   claims.get("operates", False), claims["name"])


def main() -> None:
    words = argparse.ArgumentParser(description="Makes a token.")
    words.add_argument("--name", required=True)
    words.add_argument("--read", nargs="*", default=["*"], metavar="PATTERN", help="pages, as the shell matches names")
    words.add_argument("--write", nargs="*", default=[], metavar="PATTERN")
    words.add_argument("--operates", action="store_true", help="sees the metrics")
    words.add_argument("--hours", type=float, default=24)
    given = words.parse_args()
    print(signed(the_key(), {"name": given.name, "read": given.read, "write": given.write, "operates": given.operates,
                             "until": time.time() + 3600 * given.hours}))


if __name__ == "__main__":
    main()
