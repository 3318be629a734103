"""What replies give."""
from __future__ import annotations

from typing import Any, NamedTuple, Optional

#: An item as `data` shows it, and as `apply` takes it: a text, `[text, marks]`, an opening or a closing.
Item = Any
#: A node of the tree: its kind, and then its children, where a number is a run of so many characters.
Tree = list[Any]


class Node(NamedTuple):
    """A node round an offset: its kind, where it begins and ends, and where in it the offset stands."""

    kind: str
    begin: int
    end: int
    #: `content` where text may stand, `structural` where nodes may, `inside` in a leaf
    state: str


class Reference(NamedTuple):
    """A reference: the place of its item, and `body`, the place of its text in the internal list, if it is there."""

    place: int
    group: str
    key: str
    number: int
    carrier: bool
    body: Optional[int]


class Selection(NamedTuple):
    """The two ends of a selection, as offsets."""

    anchor: int
    focus: int


class Cell(NamedTuple):
    """A cell of a table: the place of its item, its first row and column, and how many of each it covers."""

    place: int
    row: int
    column: int
    rows: int
    columns: int


class Grid(NamedTuple):
    """The cells of a table, in the order of their places."""

    rows: int
    columns: int
    cells: list[Cell]


class Patch(NamedTuple):
    """So many items went at an offset, and so many came there."""

    at: int
    removed: int
    inserted: int


class Changes(NamedTuple):
    """What changed in a list: its length now, and patches, each over the list that those before it left."""

    length: int
    patches: list[Patch]


class Served(NamedTuple):
    """What the server did with a submission of `of` changes: it committed the first `accepted`.

    Where the next one conflicts, `conflict` is the range of the committed change and that of the submitted one.
    """

    accepted: int
    of: int
    conflict: Optional[tuple[tuple[int, int], tuple[int, int]]]


class Foreign(NamedTuple):
    """A site took so many changes of others, and dropped so many of its own for them."""

    foreign: int
    dropped: int


class Ack(NamedTuple):
    """A site learned how many changes of its submission were accepted."""

    accepted: int
