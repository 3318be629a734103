"""For the check: compares what writers and followers were told with what is in the log, and with what the program replies
to it."""
from __future__ import annotations

import json
import subprocess
from pathlib import Path
from typing import Any

from seats import SITES, VIEW, spelled
from writers import Told

Lines = list[tuple[int, str]]
TAKE = spelled({"do": "take", "site": VIEW})


class Wrong(Exception):
    """What the service promises didn't hold."""


def sure(holds: bool, what: str) -> None:
    if not holds:
        raise Wrong(what)


def run(program: Path, lines: list[str]) -> list[str]:
    """The program's replies to these lines, by a run of its own."""
    script = "".join(line + "\n" for line in lines).encode()
    ran = subprocess.run([program, "run"], input=script, stdout=subprocess.PIPE, check=True)
    return ran.stdout.decode().splitlines()


def html(site: int) -> str:
    return spelled({"do": "html", "site": site})


def met(serves: int) -> list[str]:
    """Each site takes all that can wait for it, and shows its page. A `take` too many is refused."""
    return [spelled({"do": "take", "site": site}) for site in range(SITES) for _ in range(serves)] + [*map(html, range(SITES))]


class Judge:
    """One page's log."""

    def __init__(self, program: Path, told: Told, log: Lines) -> None:
        self._program, self._told, self._name = program, told, told.page
        sure([number for number, _ in log] == list(range(len(log))), f"{self._name}: the numbers have a gap")
        self._texts = [text for _, text in log]
        self._lines: list[dict[str, Any]] = [json.loads(text) for text in self._texts]
        self._opens = [number for number, line in enumerate(self._lines) if line["do"] == "open"]

    def judge(self) -> str:
        """The page in the end."""
        replies, pages = self._replayed()
        last = pages[-1]
        for number, shown in zip(self._opens[1:], pages):
            sure(json.dumps(self._lines[number]["page"]) == json.dumps(json.loads(shown)),
                 f"{self._name}: {number} opens another page than the one before it")
        newest = self._texts[self._opens[-1]:]
        again = run(self._program, [*newest, *met(self._serves(self._opens[-1], len(self._lines)))])[-1]
        sure(again[3:] == last, f"{self._name}: a replay from the newest cut shows another page")
        sure(set(self._told.pages) == {last}, f"{self._name}: a writer's page isn't that of the replay")
        self._answered(replies)
        self._followed()
        page: str = json.loads(last)
        return page

    def _serves(self, begin: int, end: int) -> int:
        return sum(line["do"] == "serve" for line in self._lines[begin:end])

    def _replayed(self) -> tuple[list[str], list[str]]:
        """All replies, and what every site shows before each cut and in the end."""
        asked: list[str] = []
        for begin, end in zip(self._opens, [*self._opens[1:], len(self._lines)]):
            asked += [*self._texts[begin:end], *met(self._serves(begin, end))]
        told = iter(run(self._program, asked))
        replies: list[str] = []
        pages: list[str] = []
        for begin, end in zip(self._opens, [*self._opens[1:], len(self._lines)]):
            replies += [next(told) for _ in range(begin, end)]
            shown = [next(told)[3:] for _ in met(self._serves(begin, end))][-SITES:]
            sure(len(set(shown)) == 1, f"{self._name}: sites differ before line {end}")
            pages.append(shown[0])
        sure(all(reply.startswith("ok") for reply in replies), f"{self._name}: a line that was refused is in the log")
        return replies, pages

    def _answered(self, replies: list[str]) -> None:
        for number, (line, reply) in self._told.answers.items():
            sure(number < len(self._lines) and self._lines[number] == line,
                 f"{self._name}: an answered line isn't the one at {number}")
            sure(replies[number] == reply, f"{self._name}: line {number} was answered {reply}, and replays as {replies[number]}")
        kept = self._kept()
        sure(len(set(kept.values())) == len(kept), f"{self._name}: a line was done twice")
        answered = {kept[number] for number in self._told.answers}
        sure(set(kept.values()) - self._told.done == answered - self._told.done,
             f"{self._name}: the log has lines that nobody was told of, or lacks some")

    def _kept(self) -> dict[int, tuple[str, int]]:
        """The writer and the number of each line that somebody wrote, by its place in the log."""
        holders: dict[int, str] = {}
        kept: dict[int, tuple[str, int]] = {}
        for number, line in enumerate(self._lines):
            said = line.get("log", {})
            if line["do"] == "open":
                holders = {site: holder for site, holder in enumerate(said["seats"]) if holder}
            elif "join" in said:
                holders[line["site"]] = said["join"]
            elif "n" in said and line["do"] != "serve":
                kept[number] = (holders[line["site"]], said["n"])
        return kept

    def _followed(self) -> None:
        told = self._told
        sure(told.gaps == 0, f"{self._name}: its follower was sent a line twice, or missed one")
        sure(len(told.followed) > max(told.answers), f"{self._name}: its follower was sent {len(told.followed)} lines")
        sure(told.followed == self._lines[:len(told.followed)], f"{self._name}: its follower was sent other lines")
