"""Shared by tools/check-docs and tools/play: the examples in fences of a document."""
from __future__ import annotations

import re
from collections.abc import Iterator
from typing import NamedTuple

FENCE = re.compile(r"^```(\w*)\n(.*?)^```$", re.M | re.S)
LINE, COMMAND = "> ", "$ "  # what begins a line of a script, and a command of a session


class Step(NamedTuple):
    number: int  # of its line in the document
    asked: str
    answers: list[str]


def steps(text: str, fence: re.Match[str]) -> list[Step]:
    """Returns the steps of a fence of lines or of commands; none where it is another. What begins with a space goes on with the line of
    a script above it."""
    mark = fence[2][:2]
    if mark not in (LINE, COMMAND):
        return []
    found: list[Step] = []
    for number, line in enumerate(fence[2].split("\n")[:-1], text.count("\n", 0, fence.start()) + 2):
        if line.startswith(mark):
            found.append(Step(number, line[2:], []))
        elif not line.startswith(" ") or mark == COMMAND:
            found[-1].answers.append(line)
        elif found[-1].answers:
            found[-1].answers[-1] += line.lstrip(" ")
        else:
            found[-1] = found[-1]._replace(asked=found[-1].asked + line.lstrip(" "))
    return found


def scripts(text: str) -> Iterator[tuple[list[str], list[Step]]]:
    """Yields each script of a document with the headings that it stands under, the outermost first."""
    headings = [(it.start(), len(it[1]), it[2]) for it in re.finditer(r"^(#+) (.*)$", text, re.M)]
    for fence in FENCE.finditer(text):
        if fence[2].startswith(LINE):
            path: list[tuple[int, str]] = []
            for _, depth, name in (it for it in headings if it[0] < fence.start()):
                path = [it for it in path if it[0] < depth] + [(depth, name)]
            yield [name for _, name in path], steps(text, fence)
