"""The lines of one page as a server sends them to whoever follows it, whether or not the page is its own.

Who has read all that there is gets what comes by one message that all share, written to its connection at once; so ten
thousand who read cost no more than ten thousand writes. Who doesn't read so fast, or is behind, is sent lines in a task of
its own, which waits for it.
"""
from __future__ import annotations

import asyncio
from collections import deque
from collections.abc import Iterable, Sequence
from dataclasses import dataclass
from itertools import islice

from log import Gone, Log, Span
from wire import Wire, framed

TAIL = 4 << 20  # bytes of the newest lines that are kept at hand
GATHER = 0.1  # seconds for which lines are gathered where they come fast
SHARED = 8  # messages that are kept for others to be sent
LONG = 256 << 10  # bytes of lines that one message has, but for a line that is longer


@dataclass(frozen=True)
class Message:
    text: str
    frame: bytes
    next: int  # the number after its lines

    @classmethod
    def of(cls, number: int, lines: Iterable[str]) -> Message:
        """As many of these lines as one message has."""
        taken: list[str] = []
        size = 0
        for line in lines:
            size += len(line)
            if taken and size > LONG:
                break
            taken.append(line)
        text = f'{{"number":{number},"lines":[{",".join(taken)}]}}'
        return cls(text, framed(text), number + len(taken))


@dataclass(eq=False)
class Follower:
    """Somebody who was sent all lines before a number."""
    wire: Wire
    number: int
    behind: asyncio.Future[None]


class Feed:
    def __init__(self, page: str, log: Log, span: Span) -> None:
        self._page, self._log = page, log
        self.next = span.next
        self.users = 0  # who would miss it
        self._over = False
        self._tail: deque[str] = deque()  # the lines just before the number `_end`
        self._end, self._bytes = span.next, 0
        self._messages: dict[int, Message] = {}  # by the number that they begin with
        self._reading = asyncio.Lock()
        self._followers: set[Follower] = set()
        self._earliest = 0.0  # when lines are sent next
        self._timer: asyncio.TimerHandle | None = None

    def put(self, number: int, lines: Sequence[str]) -> None:
        """Lines that were just appended here."""
        if number == self._end:
            self._keep(lines)
        self.hear(number + len(lines))

    def hear(self, number: int) -> None:
        """The log's next number is this one, or a later one."""
        if number > self.next:
            self.next = number
            if self._timer is None:
                loop = asyncio.get_running_loop()
                self._timer = loop.call_at(max(loop.time(), self._earliest), self._send)

    def end(self) -> None:
        """The page was deleted."""
        self._over = True
        self._send()

    async def follow(self, number: int, wire: Wire) -> None:
        """Sends the page's lines from a number on, as they come. Raises `Gone` where the page was deleted."""
        while True:
            while number < self.next or self._over:
                message = await self._message(number)
                await wire.send(message.text)
                number = message.next
            follower = Follower(wire, number, asyncio.get_running_loop().create_future())
            self._followers.add(follower)
            try:
                await follower.behind
            finally:
                self._followers.discard(follower)
            number = follower.number

    def _send(self) -> None:
        """To all who follow. The longer it takes, the longer the server does other things before it sends again."""
        began = asyncio.get_running_loop().time()
        self._timer = None
        for follower in self._followers:
            if not follower.behind.done() and not self._send_to(follower):
                follower.behind.set_result(None)
        ended = asyncio.get_running_loop().time()
        self._earliest = ended + max(GATHER, 2 * (ended - began))

    def _send_to(self, follower: Follower) -> bool:
        """Whether it has all lines then, and has taken them."""
        message = None if self._over else self._at_hand(follower.number)
        if message is None:
            return False
        follower.number = message.next
        return follower.wire.write(message.frame) and message.next == self.next

    async def _message(self, number: int) -> Message:
        """Lines from this number on, at least one. Where several want them, one reads for all."""
        while not self._over:
            async with self._reading:
                message = self._at_hand(number)
                if message is not None:
                    return message
                rows = await self._log.read(self._page, number)
                if rows and rows[0][0] == self._end:
                    self._keep([line for _, line in rows])
            if rows:
                return Message.of(rows[0][0], [line for _, line in rows])
            await asyncio.sleep(0.1)
        raise Gone(self._page)

    def _at_hand(self, number: int) -> Message | None:
        place = number - self._end + len(self._tail)
        if not 0 <= place < len(self._tail):
            return None
        message = self._messages.get(number) or Message.of(number, islice(self._tail, place, None))
        if len(self._messages) < SHARED:
            self._messages[number] = message
        return message

    def _keep(self, lines: Sequence[str]) -> None:
        self._messages.clear()
        self._tail.extend(lines)
        self._end += len(lines)
        self._bytes += sum(map(len, lines))
        while self._bytes > TAIL:
            self._bytes -= len(self._tail.popleft())
