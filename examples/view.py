"""A view: a copy of a site's list that is kept beside it, by what `changes` tells and what `data` shows.

    with Core() as core:
        core.open("<p>ab</p>")
        view = View(core)  # of this page: another `open` asks for another view
        view.follow()
        core.text(2, "X")
        view.follow()      # asks for one item, and has [{"open": "p", ..}, ("a", []), ("X", []), ("b", []), ..]
"""
from __future__ import annotations

from itertools import groupby
from typing import Any, Iterable, Iterator

from vemodel import Core

HOLE = None  # for an item that came, and is to be fetched


class View:
    """The items of a site, each an entry: an opening or a closing as `data` shows it, or a character and its marks."""

    def __init__(self, core: Core, site: int = 0) -> None:
        self.core, self.site = core, site
        self.items: list[Any] = []

    def follow(self) -> None:
        """Makes the view the list as it is now: first all patches, then what came."""
        for at, removed, inserted in self.core.changes(self.site).patches:
            self.items[at : at + removed] = [HOLE] * inserted
        for begin, end in list(holes(self.items)):
            self.items[begin:end] = singles(self.core.data(begin, end, self.site))


def holes(items: list[Any]) -> Iterator[tuple[int, int]]:
    """Yields where each run of holes begins and ends."""
    end = 0
    for is_hole, run in groupby(items, lambda it: it is HOLE):
        begin, end = end, end + len(list(run))
        if is_hole:
            yield begin, end


def singles(shown: Iterable[Any]) -> Iterator[Any]:
    """Yields an entry for each item that `data` shows: of a text one for each character, since places count these."""
    for it in shown:
        if isinstance(it, dict):
            yield it
        else:
            text, marks = it if isinstance(it, list) else (it, [])
            yield from ((char, marks) for char in text)
