"""A client of vemodel, the proved document core of a rich text editor.

    from vemodel import Core

    with Core() as core:
        core.open("<p>ab</p>")   # 6, the length of the list
        core.text(2, "X")        # 7
        core.html()              # '<p>aXb</p>'
"""
from .asynchronous import AsyncProgram
from .core import Core
from .errors import Ended, Interrupted, Refused, TimedOut
from .library import Library
from .members import Attributes, Direction, Members, Step, Wrapper
from .program import MOST_BYTES, Program
from .values import Ack, Cell, Changes, Foreign, Grid, Item, Node, Patch, Reference, Selection, Served, Tree

__version__ = "0.1.0"
__all__ = [
    "Ack",
    "AsyncProgram",
    "Attributes",
    "Cell",
    "Changes",
    "Core",
    "Direction",
    "Ended",
    "Foreign",
    "Grid",
    "Interrupted",
    "Item",
    "Library",
    "MOST_BYTES",
    "Members",
    "Node",
    "Patch",
    "Program",
    "Reference",
    "Refused",
    "Selection",
    "Served",
    "Step",
    "TimedOut",
    "Tree",
    "Wrapper",
]
