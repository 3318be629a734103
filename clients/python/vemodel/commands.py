"""The commands of docs/FORMAT.md, each as a method.

Made by tools/commands of clients/commands.json: change that, and call `tools/commands --write`.
"""
from __future__ import annotations

from abc import ABC, abstractmethod
from collections.abc import Iterable, Sequence
from typing import Literal

from . import read
from .members import Attributes, Direction, Members, Seconds, Step, Wrapper, given, pairs, wrapped
from .values import Ack, Changes, Foreign, Grid, Item, Node, Reference, Selection, Served, Tree


class Commands(ABC):
    """Each method asks one line, and gives the value of its reply."""

    @abstractmethod
    def _asked(self, do: str, members: Members, timeout: Seconds) -> str:
        """Returns what the reply to a command has after `ok `. Raises Refused."""

    def open(self, page: str, sites: int = 1, *, timeout: Seconds = None) -> int:
        """Opens a page for so many sites, 1 to 8, in place of the one that is open; gives the length of its list."""
        return read.number(self._asked("open", {"page": page, "sites": sites}, timeout))

    def html(self, site: int = 0, *, timeout: Seconds = None) -> str:
        """Shows the page."""
        return read.text(self._asked("html", {"site": site}, timeout))

    def data(self, from_: int = 0, to: int | None = None, site: int = 0, *, timeout: Seconds = None) -> list[Item]:
        """Shows the items from an offset to another, or to the end."""
        return read.items(self._asked("data", {"from": from_, **given(to=to), "site": site}, timeout))

    def tree(self, site: int = 0, *, timeout: Seconds = None) -> Tree:
        """Shows the root of the tree."""
        return read.tree(self._asked("tree", {"site": site}, timeout))

    def at(self, at: int, site: int = 0, *, timeout: Seconds = None) -> Node:
        """Shows the innermost node round an offset."""
        return read.node(self._asked("at", {"at": at, "site": site}, timeout))

    def near(self, at: int, dir: Direction, site: int = 0, *, timeout: Seconds = None) -> int:
        """Tells the nearest offset where text may stand: this one, or the first on that side."""
        return read.number(self._asked("near", {"at": at, "dir": dir, "site": site}, timeout))

    def refs(self, site: int = 0, *, timeout: Seconds = None) -> list[Reference]:
        """Shows the references."""
        return read.references(self._asked("refs", {"site": site}, timeout))

    def caret(self, site: int = 0, *, timeout: Seconds = None) -> Selection:
        """Shows the selection."""
        return read.selection(self._asked("caret", {"site": site}, timeout))

    def changes(self, site: int = 0, *, timeout: Seconds = None) -> Changes:
        """Tells what changed in the list since the site last told it, or since the page was opened. `data` shows what came."""
        return read.changes(self._asked("changes", {"site": site}, timeout))

    def text(self, at: int, text: str, marks: Literal["left", "none"] = "left", site: int = 0, *, timeout: Seconds = None) -> int:
        """Types characters, with the marks of what stands to the left, or with none."""
        return read.number(self._asked("text", {"at": at, "text": text, "marks": marks, "site": site}, timeout))

    def remove(self, from_: int, to: int, site: int = 0, *, timeout: Seconds = None) -> int:
        """Takes a range out."""
        return read.number(self._asked("remove", {"from": from_, "to": to, "site": site}, timeout))

    def split(self, at: int, depth: int = 1, site: int = 0, *, timeout: Seconds = None) -> int:
        """Splits so many of the innermost nodes."""
        return read.number(self._asked("split", {"at": at, "depth": depth, "site": site}, timeout))

    def mark(self, from_: int, to: int, tag: str, attrs: Attributes | None = None, site: int = 0, *, timeout: Seconds = None) -> int:
        """Puts a mark on the characters and leaves of a range."""
        return read.number(self._asked("mark", {"from": from_, "to": to, "tag": tag, "attrs": pairs(attrs), "site": site}, timeout))

    def unmark(self, from_: int, to: int, tag: str, attrs: Attributes | None = None, site: int = 0, *, timeout: Seconds = None) -> int:
        """Takes a mark off the characters and leaves of a range."""
        return read.number(self._asked("unmark", {"from": from_, "to": to, "tag": tag, "attrs": pairs(attrs), "site": site}, timeout))

    def wrap(
        self,
        from_: int,
        to: int,
        unwrap_outer: Iterable[str] = (),
        wrap_outer: Iterable[Wrapper] = (),
        unwrap_each: Iterable[str] = (),
        wrap_each: Iterable[Wrapper] = (),
        site: int = 0,
        *,
        timeout: Seconds = None,
    ) -> int:
        """Changes which nodes stand round sibling nodes, and round each of them."""
        members = {
            "from": from_,
            "to": to,
            "unwrap_outer": list(unwrap_outer),
            "wrap_outer": wrapped(wrap_outer),
            "unwrap_each": list(unwrap_each),
            "wrap_each": wrapped(wrap_each),
            "site": site,
        }
        return read.number(self._asked("wrap", members, timeout))

    def convert(self, at: int, kind: str, site: int = 0, *, timeout: Seconds = None) -> int:
        """Gives the content branch that begins at an offset another kind."""
        return read.number(self._asked("convert", {"at": at, "kind": kind, "site": site}, timeout))

    def attr(self, at: int, name: str, to: str | None, site: int = 0, *, timeout: Seconds = None) -> int:
        """Sets an attribute of the node that begins at an offset, or takes it away."""
        return read.number(self._asked("attr", {"at": at, "name": name, "to": to, "site": site}, timeout))

    def insert(self, at: int, html: str, site: int = 0, *, timeout: Seconds = None) -> int:
        """Puts in a fragment of a page."""
        return read.number(self._asked("insert", {"at": at, "html": html, "site": site}, timeout))

    def apply(self, ops: Sequence[Members], exact: bool = False, site: int = 0, *, timeout: Seconds = None) -> int:
        """Makes the change that the operations are; with `exact` what they insert stands for the very items that `data` shows so."""
        return read.number(self._asked("apply", {"exact": exact, "ops": ops, "site": site}, timeout))

    def batch(self, cmds: Sequence[Members], site: int = 0, *, timeout: Seconds = None) -> int:
        """Makes the changes of 1 to 1,000 commands as one; all of them, or none."""
        return read.number(self._asked("batch", {"cmds": cmds, "site": site}, timeout))

    def row_in(self, at: int, row: int, site: int = 0, *, timeout: Seconds = None) -> int:
        """Puts an empty row into the table that begins at an offset, before this one."""
        return read.number(self._asked("row_in", {"at": at, "row": row, "site": site}, timeout))

    def row_out(self, at: int, row: int, site: int = 0, *, timeout: Seconds = None) -> int:
        """Takes a row out of the table that begins at an offset."""
        return read.number(self._asked("row_out", {"at": at, "row": row, "site": site}, timeout))

    def col_in(self, at: int, column: int, site: int = 0, *, timeout: Seconds = None) -> int:
        """Puts an empty column into the table that begins at an offset, before this one."""
        return read.number(self._asked("col_in", {"at": at, "column": column, "site": site}, timeout))

    def col_out(self, at: int, column: int, site: int = 0, *, timeout: Seconds = None) -> int:
        """Takes a column out of the table that begins at an offset."""
        return read.number(self._asked("col_out", {"at": at, "column": column, "site": site}, timeout))

    def grid(self, at: int, site: int = 0, *, timeout: Seconds = None) -> Grid:
        """Shows the cells of the table that begins at an offset."""
        return read.grid(self._asked("grid", {"at": at, "site": site}, timeout))

    def indent(self, at: int, site: int = 0, *, timeout: Seconds = None) -> int:
        """Moves the list item that begins at an offset one list deeper."""
        return read.number(self._asked("indent", {"at": at, "site": site}, timeout))

    def outdent(self, at: int, site: int = 0, *, timeout: Seconds = None) -> int:
        """Moves the list item that begins at an offset one list out."""
        return read.number(self._asked("outdent", {"at": at, "site": site}, timeout))

    def undo(self, site: int = 0, *, timeout: Seconds = None) -> int:
        """Takes back the last change that wasn't sent."""
        return read.number(self._asked("undo", {"site": site}, timeout))

    def redo(self, site: int = 0, *, timeout: Seconds = None) -> int:
        """Makes again what was undone last."""
        return read.number(self._asked("redo", {"site": site}, timeout))

    def select(self, anchor: int, focus: int, site: int = 0, *, timeout: Seconds = None) -> Selection:
        """Puts both ends of the selection."""
        return read.selection(self._asked("select", {"anchor": anchor, "focus": focus, "site": site}, timeout))

    def move(self, dir: Direction, by: Step = "cluster", keep: bool = False, site: int = 0, *, timeout: Seconds = None) -> Selection:
        """Moves the focus to its next place, and the anchor with it unless it is kept."""
        return read.selection(self._asked("move", {"dir": dir, "by": by, "keep": keep, "site": site}, timeout))

    def type(self, text: str, site: int = 0, *, timeout: Seconds = None) -> int:
        """Puts a text in the place of the selection, with the caret after it."""
        return read.number(self._asked("type", {"text": text, "site": site}, timeout))

    def erase(self, dir: Direction, by: Step = "cluster", site: int = 0, *, timeout: Seconds = None) -> int:
        """Takes the selection out, or where it is collapsed what stands up to the next place."""
        return read.number(self._asked("erase", {"dir": dir, "by": by, "site": site}, timeout))

    def send(self, site: int = 0, *, timeout: Seconds = None) -> int:
        """Sends all changes that weren't sent to the server; gives how many they are."""
        return read.number(self._asked("send", {"site": site}, timeout))

    def serve(self, site: int = 0, *, timeout: Seconds = None) -> Served:
        """Has the server take the site's next submission."""
        return read.served(self._asked("serve", {"site": site}, timeout))

    def take(self, site: int = 0, *, timeout: Seconds = None) -> Foreign | Ack:
        """Has the site take what the server sends next."""
        return read.taken(self._asked("take", {"site": site}, timeout))

    def revoke(self, entry: int, live: bool = False, site: int = 0, *, timeout: Seconds = None) -> int:
        """Takes a committed change back under all later ones, as a change of the site's own;
        with `live` what was taken back already doesn't stand in its way."""
        return read.number(self._asked("revoke", {"entry": entry, "live": live, "site": site}, timeout))
