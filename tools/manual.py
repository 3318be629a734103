"""Makes the man page of the program of what docs/FORMAT.md says of it."""
from __future__ import annotations

import re

PARTS = {"The program": "DESCRIPTION", "Limits": "LIMITS"}
HEAD = r""".TH VEMODEL 1 "" "vemodel {version}" "User Commands"
.SH NAME
vemodel \- the proved document core of a rich text editor
.SH SYNOPSIS
.B vemodel
{words}
"""
TAIL = """.SH SEE ALSO
FORMAT.md, in the folder of this package's documents, is the whole manual: what a script may ask, and what it is answered.
"""


def part_of(page: str, title: str) -> str:
    """Returns what stands below a heading of the second level."""
    found = re.search(rf"^## {title}\n(.*?)(?=^## |\Z)", page, re.MULTILINE | re.DOTALL)
    if not found:
        raise ValueError(f"docs/FORMAT.md has no part {title!r}, of which the man page is made")
    return found[1]


def escaped(text: str) -> str:
    """Returns a text that roff prints as it is."""
    text = text.replace("\\", "\\e").replace("-", "\\-")
    return re.sub(r"^(?=[.'])", r"\\&", text, flags=re.MULTILINE)


def inline(text: str) -> str:
    """Returns a paragraph: what stands in backquotes is bold, and a link is its text."""
    text = escaped(re.sub(r"\[([^]]*)\]\([^)]*\)", r"\1", text))
    return re.sub(r"`([^`]*)`", r"\\fB\1\\fR", text)


def table(lines: list[str]) -> str:
    """Returns a table as a list: each row is what its first cell says, and the other cells below."""
    rows = [[cell.strip() for cell in re.split(r"(?<!\\)\|", line.strip("|"))] for line in lines]
    items = [f".TP\n{inline(first)}\n{inline('; '.join(others))}\n" for first, *others in rows[2:]]
    is_of_statuses = re.match(r"0\b", rows[2][0]) is not None
    return (".SH EXIT STATUS\n" if is_of_statuses else "") + "".join(items)


def fence(lines: list[str]) -> str:
    """Returns an example, in which the program is the installed one."""
    return ".PP\n.RS\n.nf\n" + escaped("\n".join(lines).replace("bin/vemodel", "vemodel")) + "\n.fi\n.RE\n"


def roff(part: str) -> str:
    """Returns a part of the page, block by block."""
    made = []
    for block in re.findall(r"^```.*?^```$|^\S.*?(?=\n\n|\n?\Z)", part, re.MULTILINE | re.DOTALL):
        lines = block.split("\n")
        if lines[0].startswith("```"):
            made.append(fence(lines[1:-1]))
        elif lines[0].startswith("|"):
            made.append(table(lines))
        else:
            made.append(f".PP\n{inline(block)}\n")
    return "".join(made)


def man_page(page: str, version: str) -> str:
    """Returns the man page that the manual's text gives."""
    usage = re.search(r"^usage: vemodel (.*)$", page, re.MULTILINE)
    if not usage:
        raise ValueError("docs/FORMAT.md shows no usage line, of which the man page is made")
    parts = "".join(f".SH {title}\n{roff(part_of(page, name))}" for name, title in PARTS.items())
    return HEAD.format(version=version, words=escaped(usage[1])) + parts + TAIL
