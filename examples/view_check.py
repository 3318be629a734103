"""Compares views, which examples/view.py keeps by `changes` and `data`, with the whole of `data`, over random scripts.

usage: examples/view_check.py [SCRIPTS [FIRST]]

It makes so many scripts, 1,000 if absent, from number FIRST on; a number's script is always the same. One to three sites of a page edit,
undo, send, serve, take and revoke, and now and then another page is opened. After every few lines the views of some sites follow and are
compared, and in the end those of all. Last come changes with as many patches as are told one by one, and with more.

Exit status: 0 where all views were right, 1 where one wasn't (its script is written to standard error), 2 where the words are others.
"""
from __future__ import annotations

import json
import sys
from collections import Counter
from random import Random
from typing import Any, Callable

from vemodel import Core, Patch, Refused
from view import View, singles

MAX_PATCHES = 1_000  # as many as are told one by one
FEWEST = 10  # times that each command is to be accepted, in a thousand scripts

NOTE = '{"name":"ref","attrs":{},"body":{"html":"a note"}}'
PAGES = [
    "",
    "<p>ab</p>",
    "<p>one <b>two <i>three</i></b>, e\u0301 and \U0001f600</p>\n<h2 id=\"x\">four</h2>\n\n<pre>five\nsix</pre>",
    '<ul class="c"><li>a<ul><li>b</li><li>c</li></ul></li><li><p>d</p><p>e</p></li></ul><ol><li>f</li></ol>',
    '<table><tbody><tr><td rowspan="2">a</td><td>b</td></tr><tr><td>c</td></tr><tr><th>d</th><td></td></tr></tbody></table><p>e</p>',
    '<blockquote><p>a</p></blockquote><div>b<!-- c --><p>d<br>e<img src="x"></p></div><video></video><p>f</p>',
    f"<section><h2>a</h2><p>b<sup typeof=\"mw:Extension/ref\" data-mw='{NOTE}'></sup>c</p></section>",
]
TEXTS = ["x", "yz", "\U0001f600", "e\u0301", "a word"]
FRAGMENTS = ["<b>x</b>", "<p>new</p>", "<h3>a</h3><p>b</p>", "<li>c</li>", "<br>", "text", "<ul><li>d</li></ul>", "<i>"]
BRANCHES = ("p", "h2", "h3", "pre")
MARKS: list[dict[str, Any]] = [{"tag": "b"}, {"tag": "i"}, {"tag": "a", "attrs": [["href", "./X"]]}]
Line = dict[str, Any]


class Page:
    """What a line may be about: the items of a site, an entry each, and chance."""

    def __init__(self, random: Random, items: list[Any]) -> None:
        self.random, self.items = random, items

    def offset(self) -> int:
        return self.random.randint(0, len(self.items))

    def range(self) -> dict[str, int]:
        at = self.offset()
        return {"from": at, "to": at + self.random.randint(1, 6)}

    def openings(self, *kinds: str) -> list[int]:
        """Returns the places of the openings of these kinds, or of all."""
        return [k for k, it in enumerate(self.items) if isinstance(it, dict) and "open" in it and (not kinds or it["open"] in kinds)]

    def opening(self, *kinds: str) -> int:
        """Returns one of these places; an offset where there is none."""
        places = self.openings(*kinds)
        return self.random.choice(places) if places else self.offset()

    def node(self, *kinds: str) -> tuple[str, int, int]:
        """Returns the kind of such a node, and where it begins and ends."""
        at = end = self.opening(*kinds)
        depth = 0
        for end, it in enumerate(self.items[at:], at + 1):
            depth += isinstance(it, dict) and (1 if "open" in it else -1)
            if depth <= 0:
                break
        kind = self.items[at].get("open", "p") if at < end and isinstance(self.items[at], dict) else "p"
        return kind, at, end


def wrap(page: Page) -> Line:
    kind, at, end = page.node()
    if kind in ("ul", "ol") and page.random.random() < 0.6:
        return {"from": at + 1, "to": end - 1, "unwrap_outer": [kind], "wrap_outer": [{"kind": "ol"}]}
    if kind == "blockquote":
        return {"from": at, "to": end, "unwrap_each": [kind]}
    _, at, end = page.node(*BRANCHES)
    return {"from": at, "to": end, "wrap_outer": [{"kind": "ul"}], "wrap_each": [{"kind": "li"}]}


def apply(page: Page) -> Line:
    at, gone = page.offset(), page.random.randint(0, 2)
    rest = len(page.items) - at - gone
    put: Line = {"remove": gone, "insert": [page.random.choice(TEXTS), ["m", [["b", []]]]]}
    return {"ops": [it for it in ({"retain": at}, put, {"retain": rest}) if it.get("retain", 1) > 0]}


def batch(page: Page) -> Line:
    cmds = [line(page, CHANGES) for _ in range(page.random.randint(1, 4))]
    if page.random.random() < 0.2:
        cmds.append({"do": "remove", "from": 0, "to": 0})
    return {"cmds": cmds}


# Each command's members. What a batch may hold stands first.
CHANGES: dict[str, Callable[[Page], Line]] = {
    "text": lambda page: {"at": page.offset(), "text": page.random.choice(TEXTS), "marks": page.random.choice(["left", "none"])},
    "remove": lambda page: page.range(),
    "split": lambda page: {"at": page.offset(), "depth": page.random.randint(1, 2)},
    "mark": lambda page: {**page.range(), **page.random.choice(MARKS)},
    "unmark": lambda page: {**page.range(), **page.random.choice(MARKS)},
    "wrap": wrap,
    "convert": lambda page: {"at": page.opening(*BRANCHES), "kind": page.random.choice(BRANCHES)},
    "attr": lambda page: {"at": page.opening(), "name": page.random.choice("xyz"), "to": page.random.choice(["a", "b", None])},
    "insert": lambda page: {"at": page.offset(), "html": page.random.choice(FRAGMENTS)},
    "apply": apply,
}
COMMANDS: dict[str, Callable[[Page], Line]] = {
    **CHANGES,
    "batch": batch,
    "select": lambda page: {"anchor": page.offset(), "focus": page.offset()},
    "type": lambda page: {"text": page.random.choice(TEXTS)},
    "erase": lambda page: {"dir": page.random.choice(["back", "ahead"]), "by": page.random.choice(["cluster", "word"])},
    "row_in": lambda page: {"at": page.opening("table"), "row": page.random.randint(0, 3)},
    "row_out": lambda page: {"at": page.opening("table"), "row": page.random.randint(0, 3)},
    "col_in": lambda page: {"at": page.opening("table"), "column": page.random.randint(0, 2)},
    "col_out": lambda page: {"at": page.opening("table"), "column": page.random.randint(0, 2)},
    "indent": lambda page: {"at": page.opening("li")},
    "outdent": lambda page: {"at": page.opening("li")},
    "undo": lambda page: {},
    "redo": lambda page: {},
    "send": lambda page: {},
    "serve": lambda page: {},
    "take": lambda page: {},
    "revoke": lambda page: {"entry": page.random.randint(0, 3)},
}
OFTEN = {"text": 6, "undo": 3, "redo": 2, "send": 4, "serve": 5, "take": 8, "batch": 3, "remove": 3, "attr": 3}
NEEDS = {"row_in": "table", "row_out": "table", "col_in": "table", "col_out": "table", "indent": "li", "outdent": "li"}


def line(page: Page, commands: dict[str, Callable[[Page], Line]]) -> Line:
    may = [it for it in commands if it not in NEEDS or page.openings(NEEDS[it])]
    do = page.random.choices(may, [OFTEN.get(it, 1) for it in may])[0]
    return {"do": do, **commands[do](page)}


class Script:
    """A script as it is made: each line is chosen by what the lines before it left."""

    def __init__(self, core: Core, number: int, counted: Counter[str]) -> None:
        self.core, self.random, self.counted = core, Random(number), counted
        self.lines: list[str] = []
        self.views: list[View] = []

    def ask(self, members: Line) -> None:
        self.lines.append(json.dumps(members))
        reply = self.core.line(self.lines[-1])
        word = members["do"]
        self.counted[word] += reply.startswith("ok")
        self.counted["a refused batch"] += reply.startswith("no batch")
        self.counted["a take that drops"] += reply.startswith("ok foreign") and not reply.endswith(" 0")

    def open(self) -> None:
        sites = self.random.randint(1, 3)
        self.ask({"do": "open", "page": self.random.choice(PAGES), "sites": sites})
        self.views = [View(self.core, site) for site in range(sites)]

    def edit(self) -> None:
        site = self.random.randrange(len(self.views))
        page = Page(self.random, list(singles(self.core.data(site=site))))
        self.ask({**line(page, COMMANDS), "site": site})

    def meet(self) -> None:
        """Has all sites send what they have, and take what there is."""
        for do in ("send", "serve", "take", "take", "take"):
            for site in range(len(self.views)):
                self.ask({"do": do, "site": site})

    def compare(self, views: list[View]) -> None:
        for view in views:
            self.lines.append(json.dumps({"do": "changes", "site": view.site}))
            view.follow()
            if view.items != list(singles(self.core.data(site=view.site))):
                raise AssertionError(f"the view of site {view.site} isn't its list")

    def run(self) -> None:
        self.open()
        for _ in range(self.random.randint(2, 12)):
            for _ in range(self.random.randint(1, 6)):
                self.edit()
            self.compare(self.random.sample(self.views, self.random.randint(1, len(self.views))))
            if self.random.random() < 0.1:
                self.meet()
            if self.random.random() < 0.03:
                self.open()
        self.compare(self.views)


def many(core: Core) -> None:
    """Compares what is told of a mark on so many characters, each in a paragraph of its own: as many patches, or one for all."""
    for paragraphs, was_told in ((MAX_PATCHES, True), (MAX_PATCHES + 1, True), (MAX_PATCHES, False)):
        length = core.open("<p>a</p>" * paragraphs)
        if was_told:
            core.changes()
        core.mark(0, length - 2, "b")
        each = [Patch(3 * k + 1, 1, 1) for k in range(paragraphs)]
        one = [Patch(0, length if was_told else 0, length)]
        is_one = len(each) + (not was_told) > MAX_PATCHES  # that of `open` is one more, where it isn't told yet
        if core.changes() != (length, one if is_one else each):
            raise AssertionError(f"of a mark on {paragraphs} characters other patches are told")
        core.undo()
        core.redo()
        if core.changes() != (length, [Patch(0, length, length)]) or core.changes() != (length, []):
            raise AssertionError(f"of {paragraphs} patches and as many again other ones are told")


def main(scripts: int, first: int) -> int:
    counted: Counter[str] = Counter()
    with Core() as core:
        for number in range(first, first + scripts):
            script = Script(core, number, counted)
            try:
                script.run()
            except (AssertionError, Refused) as error:
                print(*script.lines, f"view: script {number}: {error}", sep="\n", file=sys.stderr)
                return 1
        try:
            many(core)
        except AssertionError as error:
            print(f"view: {error}", file=sys.stderr)
            return 1
    rare = [it for it in [*COMMANDS, "a refused batch", "a take that drops"] if counted[it] * 1000 < FEWEST * scripts]
    if rare:
        print(f"view: too rare in these scripts: {', '.join(rare)}", file=sys.stderr)
        return 1
    print(f"view: ok ({scripts} scripts, {sum(counted[it] for it in COMMANDS)} lines that were accepted)")
    return 0


if __name__ == "__main__":
    words = sys.argv[1:]
    if len(words) > 2 or not all(it.isdecimal() for it in words):
        print(__doc__, file=sys.stderr)
        sys.exit(2)
    sys.exit(main(*map(int, words), *(1000, 1)[len(words) :]))
