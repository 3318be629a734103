"""What a page is asked for."""
from __future__ import annotations

from dataclasses import dataclass

from seats import Line


@dataclass(frozen=True)
class Limits:
    """When a log is cut, and when a seat is free again."""
    cut_bytes: int  # of lines since the last `open`: from here on the log is cut at the next quiet moment
    most_bytes: int  # from here on at once
    quiet: float  # seconds without a line
    absent: float  # seconds without a connection of a seat's holder
    turn: float  # seconds without a line of a seat's holder after which somebody else may be lent it
    most_seconds: float  # of a processor, for running it: from here on at once
    most_growth: int  # bytes that its program takes for it, beside the page: from here on at once


@dataclass(frozen=True)
class Enter:
    """Where who has this key stands."""
    holder: str


@dataclass(frozen=True)
class Sit:
    """A seat is wanted: the one that is held already, or another."""
    holder: str


@dataclass(frozen=True)
class Rise:
    """A seat is given back."""
    holder: str


@dataclass(frozen=True)
class Ask:
    """A command that changes nothing, of who has a seat or of who only reads."""
    holder: str
    payer: str  # whose share of the program's time it takes
    line: Line
    size: int


@dataclass(frozen=True)
class Change:
    """Line `n` of this writer, made on a list that began with the log's line `since`."""
    holder: str
    payer: str
    n: int
    since: int
    line: Line
    size: int


@dataclass(frozen=True)
class Show:
    """The committed page."""
    holder: str = ""


Request = Enter | Sit | Rise | Ask | Change | Show
