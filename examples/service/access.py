"""Who may do what here: where a request may come from, and a function from it to what its sender may read and write."""
from __future__ import annotations

from collections.abc import Callable, Iterable
from dataclasses import dataclass
from importlib import import_module
from urllib.parse import urlsplit

from aiohttp import web

MOST_NAME = 40  # characters of a name that others are shown


@dataclass(frozen=True)
class Visitor:
    name: str  # as others see it
    reads: Callable[[str], bool]  # of a page's name
    writes: Callable[[str], bool]
    operates: bool = False  # sees the metrics
    account: str = ""  # whose share of the programs' time it takes; else each key has one


# None is for who may do nothing at all. `tokens.py` has one by signed tokens.
Access = Callable[[web.Request], Visitor | None]


def everything(page: str) -> bool:
    return True


def anyone(request: web.Request) -> Visitor:
    """For trying out: whoever reaches the service may do everything, under the name that the request says."""
    return Visitor(request.query.get("name", "somebody"), everything, everything, True)


def access(named: str) -> Access:
    """The function that is named so, as `tokens:visitor`; its module may stand beside this one, or where Python looks. Where it has a
    function `ready`, that is called before anybody is let in."""
    name, _, function = named.partition(":")
    module = import_module(name)
    found: Access = getattr(module, function)
    if hasattr(module, "ready"):
        module.ready()
    return found


class Gate:
    """A page of another site that runs in a visitor's browser can reach whatever the browser reaches. It can't choose the
    `Origin` that the browser says, nor, with a name of its own for this machine's address, the `Host`."""

    def __init__(self, listen: str, hosts: Iterable[str], origins: Iterable[str]) -> None:
        """Hosts and origins beside the address itself, and pages that came from a host of this service."""
        _, _, port = listen.rpartition(":")
        here = {listen.lower(), f"127.0.0.1:{port}", f"localhost:{port}", f"[::1]:{port}"}
        # A browser leaves the port out where it is that of HTTP.
        self._hosts = here | {host.removesuffix(":80") for host in here} | {host.lower() for host in hosts}
        self._origins = frozenset(origins)

    def check(self, request: web.Request) -> None:
        host = request.headers.get("Host", "").lower()
        if host not in self._hosts:
            raise web.HTTPForbidden(text="this service isn't called so: see --host\n")
        origin = request.headers.get("Origin")
        if origin is not None and origin not in self._origins and host_of(origin) != host:
            raise web.HTTPForbidden(text="pages from there may not call this service: see --origin\n")


def host_of(origin: str) -> str | None:
    try:
        return urlsplit(origin).netloc.lower()
    except ValueError:
        return None
