"""How much of the programs' time each person takes. Who takes more than a part waits, and the others go ahead."""
from __future__ import annotations

import asyncio

CREDIT = 4.0  # seconds that one person may take at once


class Costs:
    def __init__(self, share: float) -> None:
        """This part of a processor each may take all the time."""
        self._share = share
        self._debts: dict[str, tuple[float, float]] = {}  # the seconds that each owed, and when

    def _debt(self, person: str) -> float:
        debt, when = self._debts.get(person, (0.0, 0.0))
        return max(0.0, debt - self._share * (asyncio.get_running_loop().time() - when))

    def pay(self, person: str, seconds: float) -> None:
        self._debts[person] = self._debt(person) + seconds, asyncio.get_running_loop().time()

    def owes(self, person: str) -> bool:
        """Whether it is to wait."""
        return self._debt(person) > CREDIT

    def forget(self) -> None:
        """Who owes nothing isn't kept."""
        self._debts = {person: debt for person, debt in self._debts.items() if self._debt(person)}
