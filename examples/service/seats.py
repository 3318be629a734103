"""What the lines of a page's log and their replies tell: who has which seat, which line of whom was done last, and what is
on its way between the sites.

Everything here is a function of lines and replies, and replies are one of lines; so a server that takes a page over and
runs its lines knows what the one before it knew. What the service itself has to say stands in the member `log` of a
line, which the program ignores, as it ignores every member that no command knows:

- `{"n": 7}`: the line is the one that the holder of this seat gave this number, or the `serve` that follows it;
- `{"join": DIGEST}`: from here on the seat is lent to who knows the key of this digest;
- `{"leave": true}`: from here on nobody has it;
- `{"seats": [DIGEST, null, ...], "done": {DIGEST: 7, ...}}`, of an `open` that cuts the log: who has each seat, and the
  number of the last line that was done of each who wrote lately.
"""
from __future__ import annotations

import hashlib
import json
from dataclasses import dataclass, field
from typing import Any

SITES = 8
# The last site is of who only reads: nothing is sent from it, and it takes whatever is served, so it shows the committed
# page. The others are seats.
VIEW = SITES - 1
# Commands that change nothing, so that they aren't in a log, those that a client may have put there, and those that no
# client has: `serve` follows each accepted `send` at once, and what `changes` tells goes by what it told before, which no
# log says.
READS = frozenset("html data tree at near refs caret grid".split())
CHANGES = frozenset(
    "text remove split mark unmark wrap convert attr row_in row_out col_in col_out indent outdent insert apply batch undo redo "
    "select move type erase send take revoke".split())
CLOSED = frozenset("open serve changes".split())
# How many entries more are pending at a site after a command that isn't here: one.
ENTRIES = {"undo": -1, "redo": 1, "select": 0, "move": 0, "send": 0}
UNANSWERED = 100  # lines of one writer that may be under way; of older ones the answers are forgotten
REMEMBERED = 500  # writers without a seat whose numbers are kept

Line = dict[str, Any]


def spelled(line: Line) -> str:
    """The line as it is run and kept. It has no newline, as JSON needs none, and raises `ValueError` where UTF-8 can't
    spell it."""
    text = json.dumps(line, ensure_ascii=False, separators=(",", ":"))
    text.encode()
    return text


def digest(key: str) -> str:
    return hashlib.sha256(key.encode()).hexdigest()[:32]


@dataclass
class Seat:
    since: int = 0  # the number of the line from which on it is its holder's: the one that lent it, or a later `open`
    holder: str = ""  # the digest of its holder's key
    pending: int = 0  # changes of this site that aren't committed, nor dropped
    queued: int = 0  # what the site has still to take


@dataclass
class Writer:
    done: int = 0  # the number of the last line that was done
    site: int | None = None
    answers: dict[int, Line] = field(default_factory=dict)  # of the last lines, by their numbers


class Seats:
    def __init__(self) -> None:
        self.seats = [Seat() for _ in range(VIEW)]
        self.writers: dict[str, Writer] = {}  # whoever sat down last is last

    def writer(self, holder: str) -> Writer:
        return self.writers.get(holder) or Writer()

    def told(self) -> Line:
        """What an `open` that cuts the log keeps of them."""
        return {"seats": [seat.holder or None for seat in self.seats],
                "done": {holder: writer.done for holder, writer in self.writers.items()}}

    def debt(self) -> int:
        """About how many bytes it takes to commit what is pending."""
        return sum(200 + 24 * seat.queued for seat in self.seats if seat.pending)

    def note(self, number: int, line: Line, reply: str) -> None:
        """An accepted line of the log."""
        kept = line.get("log", {})
        if line["do"] == "open":
            self._opened(number, kept)
            return
        site = line["site"]
        if "join" in kept:
            self._sits(site, kept["join"], number)
        elif "leave" in kept:
            self._rises(site)
        elif "n" in kept:
            self._answered(self.writers[self.seats[site].holder], number, kept["n"], line, reply)
        self._moved(site, line, reply)

    def _opened(self, number: int, kept: Line) -> None:
        self.seats = [Seat(number) for _ in range(VIEW)]
        # Who has a seat is still answered what was answered; what its lines say may mean another place now.
        answers = {holder: writer.answers for holder, writer in self.writers.items() if writer.site is not None}
        self.writers = {holder: Writer(done) for holder, done in kept["done"].items()}
        for site, holder in enumerate(kept["seats"]):
            if holder:
                self.seats[site].holder = holder
                self.writers[holder].site = site
                self.writers[holder].answers = answers.get(holder, {})

    def _sits(self, site: int, holder: str, number: int) -> None:
        writer = self.writers.pop(holder, Writer())
        self.writers[holder] = writer
        writer.site = site
        self.seats[site].holder, self.seats[site].since = holder, number

    def _rises(self, site: int) -> None:
        writer = self.writers[self.seats[site].holder]
        writer.site, self.seats[site].holder = None, ""
        writer.answers.clear()
        without = [holder for holder, writer in self.writers.items() if writer.site is None]
        for holder in without[:-REMEMBERED]:
            del self.writers[holder]

    def _answered(self, writer: Writer, number: int, n: int, line: Line, reply: str) -> None:
        if line["do"] == "serve":
            writer.answers[n]["serve"] = reply
            return
        writer.done = n
        writer.answers[n] = {"n": n, "number": number, "reply": reply}
        if len(writer.answers) > UNANSWERED:
            del writer.answers[next(iter(writer.answers))]

    def _moved(self, site: int, line: Line, reply: str) -> None:
        """What is pending and queued after it."""
        seat, words = self.seats[site], reply.split(" ")
        if line["do"] == "serve":
            # `ok A of T`; the sender is always told, and the others where something was accepted.
            for other, one in enumerate(self.seats):
                one.queued += other == site or words[1] != "0"
        elif line["do"] == "take":
            # `ok foreign N dropped D`, or `ok ack A`.
            seat.queued -= 1
            seat.pending -= int(words[-1])
        else:
            seat.pending += ENTRIES.get(line["do"], 1)
