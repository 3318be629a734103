"""Why a line isn't done, and why no line is answered any more."""
from __future__ import annotations

import signal

#: What each exit status of the program says.
STATUSES = {
    0: "it was closed",
    1: "it could not be built; standard error says why",
    2: "it doesn't know its words",
    3: "its input failed",
    4: "its output failed",
    5: "its lines had more than 67,108,864 bytes together",
    6: "there was no memory",
}


class Refused(Exception):
    """The core refused a command, which then changed nothing.

    `words` and `numbers` are those after `no`, each in their order, and `word` is the first of the words: `no bad_range 4 9` has
    the word `bad_range` and the numbers (4, 9), `no html bad_tag 1` the words `html` and `bad_tag`, and `no batch 1 bad_range 4 9`
    the words `batch` and `bad_range` and the numbers (1, 4, 9).
    """

    def __init__(self, refusal: str) -> None:
        super().__init__(refusal)
        parts = refusal.split(" ")
        self.words = tuple(it for it in parts if not it.isdecimal())
        self.numbers = tuple(int(it) for it in parts if it.isdecimal())

    @property
    def word(self) -> str:
        """The first word of the refusal."""
        return self.words[0]


class Ended(Exception):
    """No line is answered any more. `status` is the program's exit status, or what it would be of the library: 0, it was closed; 6,
    there was no memory; below 0, a signal of that number ended it. It is None where a call was given up."""

    def __init__(self, status: int | None) -> None:
        super().__init__(status)
        self.status = status

    def __str__(self) -> str:
        return f"the core ended with status {self.status}: {in_words(self.status)}"


class Interrupted(Ended):
    """A call was given up before it was answered, so that nobody knows whether its change was made, and the core ended with it."""

    def __init__(self) -> None:
        super().__init__(None)

    def __reduce__(self) -> tuple[type[Interrupted], tuple[()]]:
        return type(self), ()

    def __str__(self) -> str:
        return "a call of this core was given up before it was answered, which ended the core: begin another one from what you keep"


class TimedOut(Interrupted, TimeoutError):
    """This call's time ran out. The core ended with it."""

    def __str__(self) -> str:
        return "the call took longer than its time, which ended the core: begin another one from what you keep"


def in_words(status: int | None) -> str:
    """Says what an exit status, as `subprocess` gives it, means."""
    if status is not None and status < 0:
        return signal.strsignal(-status) or "a signal"
    return STATUSES.get(-1 if status is None else status, "not a status of this program")
